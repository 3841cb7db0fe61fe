-- who placed the order 1007
SELECT DISTINCT c.name, c.segment
FROM orders o, customer c
WHERE o.orderkey = '1007' AND c.custkey = o.custkey
