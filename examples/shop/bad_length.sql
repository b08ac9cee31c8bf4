-- 29 BadLength: a text has at least one character.
CREATE TABLE customer (id INTEGER PRIMARY KEY, name VARCHAR(0));
