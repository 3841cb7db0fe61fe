SELECT DISTINCT t1.a FROM r t1, r t2, r t3, r t4, r t5, r t6, r t7, r t8, r t9, r t10, r t11, r t12
