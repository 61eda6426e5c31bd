SELECT * FROM sales WHERE region = 'east';
