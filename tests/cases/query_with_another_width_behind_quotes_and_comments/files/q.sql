SELECT DISTINCT 'select' -- select
FROM r UNION -- select
 sElect DISTINCT "select", a FROM s