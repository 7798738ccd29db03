CREATE TABLE orders (id INT INDEX RANGE, cust INT, note TEXT);
CREATE TABLE items (ord INT INDEX, qty INT, part TEXT);
CREATE TABLE customers (cust INT, name TEXT);
CREATE TABLE parts (part TEXT, price INT);
IMPORT INTO orders LINES 3;
1,10,soon
2,11,
3,10,late
IMPORT INTO items LINES 4;
1,5,bolt
2,7,bolt
3,1,washer
3,9,nut
IMPORT INTO customers LINES 2;
10,Ann
11,Bob
IMPORT INTO parts LINES 3;
bolt,4
nut,2
washer,1
SELECT id, qty FROM orders, items WHERE ord = id ORDER BY 1, 2;
SELECT o.id, i.part FROM orders AS o, items i WHERE i.ord = o.id AND (i.qty >= 5 OR NOT o.note = 'late') ORDER BY 1;
SELECT name, i.part, qty, price FROM customers c, orders o, items i, parts p
WHERE c.cust = o.cust AND i.ord = o.id AND p.part = i.part ORDER BY name, 2;
SELECT a.id, b.id FROM orders a, orders b WHERE a.cust = b.cust AND a.id < b.id;
SELECT * FROM customers, parts WHERE price > 2 ORDER BY 1;
