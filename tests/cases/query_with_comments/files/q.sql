-- the names: 'each once
SELECT DISTINCT b -- no "quotes" here
FROM r--; the end