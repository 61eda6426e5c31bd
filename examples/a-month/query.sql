SELECT id, sold FROM sales WHERE sold >= DATE '2024-02-01' AND sold < DATE '2024-03-01';
