SELECT DISTINCT lname FROM udirect;
SELECT DISTINCT eid, onum FROM profinfo WHERE lname = 'smith'
