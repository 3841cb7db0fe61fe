SELECT DISTINCT eid, onum FROM profinfo WHERE lname = 'smith'
UNION
SELECT DISTINCT eid, onum FROM profinfo WHERE lname = 'jones'
