SELECT DISTINCT status FROM orders WHERE custkey = '05'
