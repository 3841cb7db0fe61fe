-- the parts of the brand Nordic, also those that nobody offers
SELECT DISTINCT name FROM part WHERE brand = 'Nordic'
