SELECT DISTINCT s.b FROM r, s WHERE s.a = r.a
