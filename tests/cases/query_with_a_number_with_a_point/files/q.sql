SELECT DISTINCT eid FROM udirect WHERE lname = 2.5
