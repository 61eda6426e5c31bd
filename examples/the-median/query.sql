SELECT price FROM sales ORDER BY price;
