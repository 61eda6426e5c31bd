create table Orders ( -- one row an order
  Total bigint primary key
);
