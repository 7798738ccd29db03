CREATE TABLE items (ord INT, qty INT, part TEXT);
IMPORT INTO items LINES 6;
1,5,bolt
1,2,nut
2,7,bolt
3,1,washer
3,9,nut
4,2,bolt
SELECT COUNT(*), SUM(qty), MIN(qty), MAX(part) FROM items;
SELECT part, COUNT(*), SUM(qty) FROM items GROUP BY part ORDER BY part;
SELECT part, COUNT(*), SUM(qty) FROM items WHERE qty > 1 GROUP BY part ORDER BY 3 DESC, part LIMIT 10;
SELECT ord, part FROM items GROUP BY ord, part ORDER BY ord DESC, part LIMIT 3;
SELECT MAX(qty) FROM items GROUP BY part ORDER BY 1;
SELECT COUNT(*), COUNT(part) FROM items WHERE qty > 100;
SELECT part, MIN(ord) FROM items WHERE qty > 100 GROUP BY part;
SELECT SUM(qty) FROM items WHERE qty > 100;
SELECT ord, SUM(qty) FROM items GROUP BY part;
IMPORT INTO items LINES 2;
5,9223372036854775807,gear
6,9223372036854775807,gear
SELECT SUM(qty) FROM items WHERE part = 'gear';
