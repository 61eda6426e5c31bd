SELECT COUNT(*) - COUNT(discount) AS missing FROM sales;
