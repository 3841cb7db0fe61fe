-- the rooms of the Smiths
SELECT DISTINCT eid, onum FROM profinfo WHERE lname = 'Smith';

-- all last names
SELECT DISTINCT lname FROM udirect
