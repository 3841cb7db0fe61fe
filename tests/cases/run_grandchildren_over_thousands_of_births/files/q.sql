-- the children of the daughters of the person 40, and in which region they live now
SELECT DISTINCT g.name, g.home, p.region
FROM birth a, birth b, person g, place p
WHERE a.mother = '40' AND b.mother = a.child
  AND g.id = b.child AND p.name = g.home
