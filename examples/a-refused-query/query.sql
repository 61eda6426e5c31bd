SELECT region, qty FROM sales GROUP BY region;
