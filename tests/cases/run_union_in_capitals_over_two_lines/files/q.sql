-- both
select distinct b from r -- union all
	UniON -- select distinct a, b from r;
SELECT DISTINCT c FROM s;
