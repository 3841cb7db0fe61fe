-- which suppliers in Northern Europe offer which parts of the brand Nordic, at which price
SELECT DISTINCT s.name AS supplier, p.name AS part, ps.price
FROM region r, nation n, supplier s, partsupp ps, part p
WHERE r.name = 'Northern Europe' AND n.regionkey = r.regionkey
  AND s.nationkey = n.nationkey AND ps.suppkey = s.suppkey
  AND p.partkey = ps.partkey AND p.brand = 'Nordic'
