-- what flies from Oslo or from Bergen on the first of March
SELECT DISTINCT origin, destination, number FROM flight WHERE origin = 'OSL' AND day = '2027-03-01'
UNION
SELECT DISTINCT origin, destination, number FROM flight WHERE origin = 'BGO' AND day = '2027-03-01'
