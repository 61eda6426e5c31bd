SELECT id, item FROM sales WHERE item <> 'tea' OR item IS NULL;
