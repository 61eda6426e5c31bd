CREATE TABLE visits (visitor VARCHAR(10) NOT NULL, seen DATE);
