SELECT DISTINCT eid, onum FROM profinfo
