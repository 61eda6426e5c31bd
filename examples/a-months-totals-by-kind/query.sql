SELECT item, SUM(qty) AS pieces, SUM(qty * price) AS revenue
FROM sales
WHERE sold >= DATE '2024-03-01' AND sold < DATE '2024-04-01'
GROUP BY item;
