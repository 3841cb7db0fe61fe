SELECT DISTINCT c.name FROM orders AS o, customer AS c WHERE o.orderkey = 1006 AND c.custkey = o.custkey
