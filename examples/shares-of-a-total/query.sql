SELECT region, SUM(qty * price) * 10000 / 28140 AS percent FROM sales GROUP BY region ORDER BY percent DESC;
