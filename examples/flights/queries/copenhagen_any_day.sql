-- what flies from Oslo to Copenhagen, on any day
SELECT DISTINCT day, number FROM flight WHERE origin = 'OSL' AND destination = 'CPH'
