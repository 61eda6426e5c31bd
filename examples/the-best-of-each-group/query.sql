SELECT region, MAX(qty * price) AS best, MIN(sold) AS first FROM sales GROUP BY region;
