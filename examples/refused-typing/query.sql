SELECT customer, SUM(total) FROM orders
