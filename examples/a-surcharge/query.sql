SELECT id, price * 1.19 AS gross FROM sales WHERE price * 1.19 > 14;
