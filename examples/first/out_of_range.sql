SELECT number
FROM employee
WHERE grade > 32767;
