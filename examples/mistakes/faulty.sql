-- One mistake of each kind, as people make it. The same queries mended stand in mended.sql, in the same order.

-- E1: nobody is paid so much by the month; a salary of a year was meant.
SELECT name FROM employee WHERE salary > 50000;

-- E2: the key among the columns keeps all rows apart, so DISTINCT only costs time.
SELECT DISTINCT id, name FROM employee WHERE salary > 5000;

-- E3: the column says in each row what WHERE says already.
SELECT id, status FROM orders WHERE status = 'open';

-- E4: the join makes the two columns equal; the department's name was meant.
SELECT e.name, e.department, d.id FROM employee e, department d WHERE e.department = d.id AND d.floor = 2;

-- E5: each employee has exactly one department, and nothing of it is used.
SELECT e.name, e.salary FROM employee e, department d WHERE e.department = d.id;

-- E6: each order has not the one status or not the other; AND was meant.
SELECT id FROM orders WHERE status <> 'paid' OR status <> 'sent';

-- E7: there is no such status.
SELECT id FROM orders WHERE status = 'open' OR status = 'payed';

-- E8: each employee beside itself; the salary of the boss was meant.
SELECT e.name, b.salary FROM employee e, employee b WHERE e.id = b.id;

-- E9: two employees may have the name, and then the system breaks off with an error.
SELECT name FROM employee WHERE salary > (SELECT x.salary FROM employee x WHERE x.name = 'Smith');

-- E10: one employee without a boss, and the answer is empty.
SELECT name FROM employee WHERE id NOT IN (SELECT boss FROM employee);
