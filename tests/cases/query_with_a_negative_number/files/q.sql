SELECT DISTINCT eid FROM udirect WHERE lname = -1
