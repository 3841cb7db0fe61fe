SELECT DISTINCT j.a FROM r a, r b, r c, r d, r e, r f, r g, r h, r i, r j
