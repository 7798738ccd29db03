CREATE TABLE orders (id INT INDEX RANGE, cust INT, note TEXT);
create table items (ord int index, qty int, part text);
SELECT * FROM orders;
CREATE TABLE Orders (id INT);
CREATE TABLE orders (id INT);
CREATE TABLE twice (id INT, note TEXT, id TEXT);
CREATE TABLE order (id INT);
CREATE TABLE t (id VARCHAR);
CREATE TABLE t ();
CREATE TABLE orders (id INT, id INT);
CREATE TABLE wide (c01 INT, c02 INT, c03 INT, c04 INT, c05 INT, c06 INT, c07 INT, c08 INT, c09 INT, c10 INT, c11 INT, c12 INT,
    c13 INT, c14 INT, c15 INT, c16 INT, c17 INT, c18 INT, c19 INT, c20 INT, c21 INT, c22 INT, c23 INT, c24 INT,
    c25 INT, c26 INT, c27 INT, c28 INT, c29 INT, c30 INT, c31 INT, c32 INT, c33 INT);
SELECT * FROM twice;
