-- Customers with two amounts or more, and a mean above 10. An amount that is null is in no total and no mean; a mean is cut off
-- behind its last digit, as 15.005 of Bo; the rows without a customer are one group.
SELECT customer, COUNT(*) AS n, COUNT(amount) AS known, AVG(amount) AS mean, SUM(amount) AS total
FROM orders
GROUP BY customer
HAVING COUNT(amount) >= 2 AND AVG(amount) > 10
ORDER BY total DESC;
