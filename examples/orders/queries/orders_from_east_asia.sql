-- who ordered from East Asia, and when
SELECT DISTINCT c.name AS customer, o.orderdate
FROM region r, nation n, customer c, orders o
WHERE r.name = 'East Asia' AND n.regionkey = r.regionkey
  AND c.nationkey = n.nationkey AND o.custkey = c.custkey
