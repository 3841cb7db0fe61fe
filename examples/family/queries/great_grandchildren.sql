-- the children of the daughters of the daughters of the person 1
SELECT DISTINCT g.name
FROM birth a, birth b, birth c, person g
WHERE a.mother = '1' AND b.mother = a.child AND c.mother = b.child AND g.id = c.child
