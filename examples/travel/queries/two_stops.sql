-- from Oslo to Lisbon with two stops, on one day
SELECT DISTINCT f.day, f.destination AS first_stop, g.destination AS second_stop,
  f.number AS first, g.number AS second, h.number AS third
FROM flight f, flight g, flight h
WHERE f.origin = 'OSL' AND h.destination = 'LIS'
  AND g.origin = f.destination AND h.origin = g.destination
  AND g.day = f.day AND h.day = f.day
