CREATE TABLE sales (region VARCHAR(10), amount DECIMAL(10, 2), paid DATE);
