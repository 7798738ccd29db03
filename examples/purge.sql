CREATE TABLE orders (id INT INDEX RANGE, cust INT);
CREATE TABLE items (ord INT INDEX, part TEXT);
IMPORT INTO orders LINES 2;
1,10
2,20
IMPORT INTO items LINES 3;
1,bolt
1,nut
2,nut
IMPORT INTO orders LINES 1;
3,10
SELECT id, part FROM orders, items WHERE ord = id ORDER BY 1, 2;
PURGE CHUNK 1 OF orders;
SELECT id FROM orders;
SELECT id, part FROM orders, items WHERE ord = id ORDER BY 1, 2;
PURGE CHUNK 1 OF orders;
PURGE CHUNK 2 OF orders;
PURGE CHUNK 4 OF orders;
PURGE CHUNK 1 OF nothing;
IMPORT INTO orders LINES 1;
1,30
SELECT id, cust, part FROM orders, items WHERE ord = id ORDER BY part;
PURGE CHUNK 2 OF items;
SELECT COUNT(*) FROM items;
SELECT MIN(part) FROM items;
