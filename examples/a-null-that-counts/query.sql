SELECT COUNT(*) AS n, COUNT(discount) AS known, AVG(discount) AS of_known, AVG(COALESCE(discount, 0.0000)) AS of_all
FROM sales;
