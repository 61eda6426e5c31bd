SELECT region, COUNT(*) AS n, SUM(qty) AS pieces, SUM(qty * price) AS revenue FROM sales GROUP BY region;
