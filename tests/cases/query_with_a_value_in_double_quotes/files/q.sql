SELECT DISTINCT eid FROM udirect WHERE lname = "smith"
