SELECT SUM(id) FROM prices
