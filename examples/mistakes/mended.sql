-- The queries of faulty.sql, mended, in the same order. Nothing is found in them.

-- E1: a salary of a month.
SELECT name FROM employee WHERE salary > 5000;

-- E2: without DISTINCT.
SELECT id, name FROM employee WHERE salary > 5000;

-- E3: without the column.
SELECT id FROM orders WHERE status = 'open';

-- E4: the name of the department in place of the two numbers.
SELECT e.name, d.name FROM employee e, department d WHERE e.department = d.id AND d.floor = 2;

-- E5: without the join.
SELECT name, salary FROM employee;

-- E6: neither of the two.
SELECT id FROM orders WHERE status <> 'paid' AND status <> 'sent';

-- E7: a status that there is.
SELECT id FROM orders WHERE status = 'open' OR status = 'paid';

-- E8: the boss.
SELECT e.name, b.salary FROM employee e, employee b WHERE e.boss = b.id;

-- E9: by the key.
SELECT name FROM employee WHERE salary > (SELECT x.salary FROM employee x WHERE x.id = 7);

-- E10: without those that have no boss.
SELECT name FROM employee WHERE id NOT IN (SELECT boss FROM employee WHERE boss IS NOT NULL);
