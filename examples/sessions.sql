CREATE TABLE orders (id INT INDEX, customer TEXT);
CREATE TABLE items (orders_id INT, part TEXT, quantity INT);
BARRIER;

SESSION loading;
IMPORT INTO orders LINES 3;
1,Ada
2,Bert
3,Cleo
IMPORT INTO orders LINES 1;
4,Dora
SESSION parts;
IMPORT INTO items LINES 5;
1,bolt,10
1,nut,20
2,bolt,5
4,washer,7
4,nut,1
SESSION main;
SELECT COUNT(*) FROM orders;
BARRIER;

SESSION analyst;
SELECT customer, part, quantity FROM orders, items WHERE orders_id = id ORDER BY 1, 2;
SELECT part, SUM(quantity) FROM items GROUP BY part ORDER BY part;
SESSION loading;
SELECT COUNT(*) FROM orders;
BARRIER;

PURGE CHUNK 3 OF orders;
SESSION analyst;
SELECT part, COUNT(*) FROM items GROUP BY part ORDER BY 2 DESC, 1;
BARRIER;
SESSION main;
SELECT customer FROM orders ORDER BY 1;
