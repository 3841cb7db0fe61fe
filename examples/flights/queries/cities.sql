-- each city with an airport, once
SELECT DISTINCT a.city AS city FROM airport AS a;
