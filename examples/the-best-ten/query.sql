SELECT id, qty * price AS revenue FROM sales ORDER BY revenue DESC, id;
