-- What all orders add up to.
select sum(o.total) AS Revenue
from orders o;
