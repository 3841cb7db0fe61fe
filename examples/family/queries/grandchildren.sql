-- the children of the daughters of the person 1, and in which region they live now
SELECT DISTINCT g.name, g.home, p.region
FROM birth a, birth b, person g, place p
WHERE a.mother = '1' AND b.mother = a.child
  AND g.id = b.child AND p.name = g.home
