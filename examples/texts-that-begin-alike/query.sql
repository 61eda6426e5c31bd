SELECT id, item FROM sales WHERE item >= 'co' AND item < 'cp';
