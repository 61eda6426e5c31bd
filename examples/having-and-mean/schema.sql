CREATE TABLE orders (customer VARCHAR(8), amount DECIMAL(8, 2));
