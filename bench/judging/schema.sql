-- A lending library with branches in several towns.

CREATE TABLE city (
    id INTEGER PRIMARY KEY,
    name VARCHAR(40) NOT NULL,
    country CHAR(2) NOT NULL,
    UNIQUE (name, country)
);

CREATE TABLE publisher (
    id INTEGER PRIMARY KEY,
    name VARCHAR(60) NOT NULL UNIQUE,
    city INTEGER REFERENCES city
);

CREATE TABLE author (
    id INTEGER PRIMARY KEY,
    name VARCHAR(60) NOT NULL,
    born SMALLINT CHECK (born > 0),
    died SMALLINT,
    CHECK (died >= born)
);

CREATE TABLE book (
    isbn CHAR(13) PRIMARY KEY,
    title VARCHAR(200) NOT NULL,
    publisher INTEGER NOT NULL REFERENCES publisher,
    year SMALLINT CHECK (year BETWEEN 1450 AND 2100),
    pages INTEGER CHECK (pages > 0),
    language CHAR(2) NOT NULL
);

CREATE TABLE written (
    book CHAR(13) REFERENCES book,
    author INTEGER REFERENCES author,
    place SMALLINT NOT NULL CHECK (place >= 1),
    PRIMARY KEY (book, author),
    UNIQUE (book, place)
);

CREATE TABLE branch (
    id INTEGER PRIMARY KEY,
    name VARCHAR(40) NOT NULL UNIQUE,
    city INTEGER NOT NULL REFERENCES city
);

CREATE TABLE copy (
    book CHAR(13) REFERENCES book,
    number SMALLINT CHECK (number >= 1),
    branch INTEGER NOT NULL REFERENCES branch,
    state VARCHAR(8) NOT NULL CHECK (state IN ('here', 'out', 'lost', 'mending')),
    price INTEGER CHECK (price >= 0),
    PRIMARY KEY (book, number)
);

CREATE TABLE reader (
    id INTEGER PRIMARY KEY,
    name VARCHAR(60) NOT NULL,
    email VARCHAR(80) UNIQUE,
    city INTEGER REFERENCES city,
    age SMALLINT CHECK (age BETWEEN 5 AND 120),
    kind VARCHAR(8) NOT NULL CHECK (kind IN ('child', 'adult', 'staff')),
    since INTEGER NOT NULL
);

CREATE TABLE loan (
    id INTEGER PRIMARY KEY,
    book CHAR(13) NOT NULL,
    number SMALLINT NOT NULL,
    reader INTEGER NOT NULL REFERENCES reader,
    taken INTEGER NOT NULL,
    due INTEGER NOT NULL,
    back INTEGER,
    fine INTEGER CHECK (fine >= 0),
    FOREIGN KEY (book, number) REFERENCES copy,
    CHECK (due > taken),
    CHECK (back >= taken)
);

CREATE TABLE hold (
    reader INTEGER REFERENCES reader,
    book CHAR(13) REFERENCES book,
    branch INTEGER NOT NULL REFERENCES branch,
    asked INTEGER NOT NULL,
    until INTEGER,
    PRIMARY KEY (reader, book),
    CHECK (until > asked)
);
