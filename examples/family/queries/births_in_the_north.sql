-- who was born in the region North, and where
SELECT DISTINCT n.name, b.place
FROM birth b, place p, person n
WHERE p.region = 'North' AND b.place = p.name AND n.id = b.child
