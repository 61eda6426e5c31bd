SELECT id, item, qty FROM sales WHERE item IN ('tea', 'cocoa') AND qty BETWEEN 2 AND 4;
