SELECT DISTINCT onum FROM profinfo WHERE eid = '1'
