SELECT number
FROM employee
WHERE salary > 5000 AND grade >= 3 AND salary <= 5000;
