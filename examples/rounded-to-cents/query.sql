SELECT id, qty * price * 0.19 AS exact, qty * price * 19 / 100 AS truncated, (qty * price * 19 + 0.50) / 100 AS rounded
FROM sales
WHERE region = 'north';
