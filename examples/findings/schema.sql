-- The staff of a firm; a salary is paid by the month.
CREATE TABLE staff (
    id INTEGER PRIMARY KEY,
    name VARCHAR(40) NOT NULL,
    salary INTEGER CHECK (salary BETWEEN 1000 AND 20000),
    boss INTEGER
);
