SELECT DISTINCT a FROM r, s WHERE s.b = r.b AND s.d = 'x'
