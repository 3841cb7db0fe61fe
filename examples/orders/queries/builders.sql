-- the customers that build, wherever they are
SELECT DISTINCT name FROM customer WHERE segment = 'building'
