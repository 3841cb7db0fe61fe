SELECT DISTINCT custkey FROM orders WHERE ordkey = 7
