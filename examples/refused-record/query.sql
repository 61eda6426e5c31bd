SELECT SUM(id) FROM orders
