-- What is shipped by a day, in groups: totals, a mean and a count of each.
SELECT flag, status, SUM(qty) AS q, SUM(price * (100 - pct)) AS net, AVG(price) AS mean, COUNT(*) AS n
FROM lines
WHERE shipped <= DATE '1998-12-01' - INTERVAL '90' DAY
GROUP BY flag, status
ORDER BY flag, status;
