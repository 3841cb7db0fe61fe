-- all numbers under which Nordwind flies
SELECT DISTINCT number FROM carrier WHERE airline = 'Nordwind'
