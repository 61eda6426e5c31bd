SELECT region, item, SUM(qty) AS pieces FROM sales GROUP BY region, item ORDER BY pieces DESC, region, item;
