SELECT COUNT(*) AS n, SUM(qty * price) AS revenue, MIN(sold) AS first, MAX(sold) AS last FROM sales;
