SELECT DISTINCT d.lname FROM udirect d JOIN profinfo p ON d.eid = p.eid
