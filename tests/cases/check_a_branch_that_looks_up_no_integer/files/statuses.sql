SELECT DISTINCT orderkey, status FROM orders
