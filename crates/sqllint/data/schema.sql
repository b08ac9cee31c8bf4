CREATE TABLE employee (
  number INTEGER,
  salary INTEGER,
  grade SMALLINT
);
