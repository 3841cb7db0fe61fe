SELECT DISTINCT eid, onum FROM profinfo WHERE lname = 'smith';
SELECT DISTINCT eid FROM udirect WHERE lname = 'a' AND lname = 'b';
SELECT DISTINCT lname FROM udirect