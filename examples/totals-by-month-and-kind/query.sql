SELECT month, item, SUM(qty * price) AS revenue FROM sales GROUP BY month, item;
