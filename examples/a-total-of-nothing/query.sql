SELECT COUNT(*) AS n, SUM(qty * price) AS revenue, MIN(sold) AS first FROM sales WHERE region = 'west';
