-- 26 NotAKey: the column that is referred to is no key.
CREATE TABLE customer (id INTEGER PRIMARY KEY, name VARCHAR(40));
CREATE TABLE purchase (id INTEGER PRIMARY KEY, buyer VARCHAR(40) REFERENCES customer (name));
