SELECT DISTINCT f.destination, c.airline, p.class, p.price
FROM flight f, fare p, carrier c
WHERE f.origin = 'OSL' AND f.day = '2027-03-02'
  AND p.number = f.number AND p.day = f.day
  AND c.number = f.number
