SELECT region, SUM(qty * price * (1 - COALESCE(discount, 0))) AS net FROM sales GROUP BY region;
