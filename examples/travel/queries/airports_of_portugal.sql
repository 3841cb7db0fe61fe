-- the airports of Portugal, with their cities
SELECT DISTINCT a.code, c.name
FROM country n, city c, airport a
WHERE n.name = 'Portugal' AND c.country = n.code AND a.city = c.code
