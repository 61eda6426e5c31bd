SELECT region, AVG(COALESCE(discount * 0 + 100, 0)) AS percent FROM sales GROUP BY region;
