SELECT DISTINCT eid, onum FROM profinfo WHERE lname = 'smith';
SELECT DISTINCT b FROM r
