SELECT price, COUNT(*) AS n, MIN(id) AS first FROM sales GROUP BY price HAVING COUNT(*) > 1;
