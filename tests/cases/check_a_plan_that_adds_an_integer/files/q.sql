SELECT DISTINCT r.a, b FROM r, s WHERE s.a = r.a
