SELECT DISTINCT a.city, c.airline
FROM airport a, flight f, carrier c
WHERE f.origin = a.code AND c.number = f.number
