-- A shop: four tables with keys, checks and foreign keys.
CREATE TABLE customer (
    id INTEGER PRIMARY KEY,
    name VARCHAR(40) NOT NULL,
    email VARCHAR(60) UNIQUE,
    credit INTEGER DEFAULT 0 CHECK (credit >= 0)
);

CREATE TABLE product (
    code CHAR(8) PRIMARY KEY,
    title VARCHAR(80) NOT NULL,
    price INTEGER NOT NULL,
    stock SMALLINT NOT NULL,
    CONSTRAINT fair CHECK (price > 0 AND (stock >= 0 OR price IN (1, 2))),
    UNIQUE (title, price)
);

CREATE TABLE purchase (
    id INTEGER PRIMARY KEY,
    customer INTEGER NOT NULL REFERENCES customer ON DELETE CASCADE,
    paid INTEGER,
    CHECK (paid IS NULL OR paid BETWEEN 1 AND 1000000)
);

CREATE TABLE line (
    purchase INTEGER NOT NULL,
    product CHAR(8) NOT NULL REFERENCES product (code) ON UPDATE NO ACTION,
    amount SMALLINT NOT NULL CHECK (amount <> 0),
    PRIMARY KEY (purchase, product),
    FOREIGN KEY (purchase) REFERENCES purchase (id)
);
