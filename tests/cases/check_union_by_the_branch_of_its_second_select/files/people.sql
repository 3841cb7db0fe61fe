SELECT DISTINCT eid, lname FROM profinfo
UNION
SELECT DISTINCT eid, lname FROM udirect
