SELECT AVG(price) AS short, AVG(price * 1.000) AS long, AVG(qty) AS whole, AVG(qty * 1.00) AS parts FROM sales;
