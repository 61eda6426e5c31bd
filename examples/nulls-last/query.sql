SELECT id, discount, COALESCE(discount * 0, 1) AS missing FROM sales ORDER BY missing, discount, id;
