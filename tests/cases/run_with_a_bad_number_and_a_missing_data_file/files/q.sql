SELECT DISTINCT eid, onum FROM profinfo WHERE lname = 'smith'
