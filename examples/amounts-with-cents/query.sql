SELECT SUM(price) AS prices, SUM(qty * price) AS revenue, SUM(qty * price * (1 - COALESCE(discount, 0))) AS net
FROM sales;
