-- out from Oslo on the first of March and back on the third, from the same airport: where to, with whom, and for how much
SELECT DISTINCT n.name AS country, c.name AS city, o.number AS out, oc.airline AS out_with, p.price AS out_for,
  b.number AS back, bc.airline AS back_with, q.price AS back_for
FROM flight o, flight b, airport a, city c, country n, carrier oc, carrier bc, fare p, fare q
WHERE o.origin = 'OSL' AND o.day = '2027-03-01'
  AND b.origin = o.destination AND b.destination = 'OSL' AND b.day = '2027-03-03'
  AND a.code = o.destination AND c.code = a.city AND n.code = c.country
  AND oc.number = o.number AND bc.number = b.number
  AND p.number = o.number AND p.day = o.day AND p.class = 'economy'
  AND q.number = b.number AND q.day = b.day AND q.class = 'economy'
