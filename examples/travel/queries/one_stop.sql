-- from Oslo to Lisbon with one stop, on one day: where the stop is, and with whom
SELECT DISTINCT f.day, c.name AS stop, n.name AS country,
  f.number AS first, fc.airline AS first_with, g.number AS second, gc.airline AS second_with
FROM flight f, flight g, airport a, city c, country n, carrier fc, carrier gc
WHERE f.origin = 'OSL' AND g.destination = 'LIS'
  AND g.origin = f.destination AND g.day = f.day
  AND a.code = f.destination AND c.code = a.city AND n.code = c.country
  AND fc.number = f.number AND gc.number = g.number
