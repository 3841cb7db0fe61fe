-- what is in the order 1007
SELECT DISTINCT l.line, p.name AS part, l.quantity
FROM lineitem l, part p
WHERE l.orderkey = '1007' AND p.partkey = l.partkey
