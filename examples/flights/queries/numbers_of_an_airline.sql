-- all numbers of each airline that flies from Oslo to Copenhagen on the second of March
SELECT DISTINCT o.number
FROM flight f, carrier c, carrier o
WHERE f.origin = 'OSL' AND f.destination = 'CPH' AND f.day = '2027-03-02'
  AND c.number = f.number AND o.airline = c.airline
