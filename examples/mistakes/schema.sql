-- A firm: its staff and its orders. A salary is paid by the month.
CREATE TABLE department (
    id INTEGER PRIMARY KEY,
    name VARCHAR(40) NOT NULL UNIQUE,
    floor SMALLINT
);

CREATE TABLE employee (
    id INTEGER PRIMARY KEY,
    name VARCHAR(40) NOT NULL,
    salary INTEGER NOT NULL CHECK (salary BETWEEN 1000 AND 20000),
    department INTEGER NOT NULL REFERENCES department,
    boss INTEGER
);

CREATE TABLE orders (
    id INTEGER PRIMARY KEY,
    customer VARCHAR(40) NOT NULL,
    status VARCHAR(10) NOT NULL CHECK (status IN ('open', 'paid', 'sent')),
    total INTEGER NOT NULL CHECK (total > 0)
);
