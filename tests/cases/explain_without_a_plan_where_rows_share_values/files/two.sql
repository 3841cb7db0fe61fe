SELECT DISTINCT one.a FROM staff AS one, staff AS two
