CREATE TABLE items (ord INT, qty INT, part TEXT);
IMPORT INTO items LINES 6;
1,5,bolt
1,2,nut
2,7,bolt
3,1,washer
3,9,nut
4,-2,it's late
SELECT * FROM items WHERE part = 'bolt' ORDER BY ord;
SELECT ord, qty FROM items WHERE qty >= 5 AND ord <> 3 ORDER BY 1;
SELECT part FROM items WHERE qty < 0 OR part > 'nut' ORDER BY part;
SELECT ord FROM items WHERE NOT qty > 1 AND ord = 3 OR ord = 4 ORDER BY ord;
SELECT ord FROM items WHERE NOT (qty > 1 AND ord = 3) AND part != 'bolt' ORDER BY ord;
SELECT ord FROM items WHERE part = 'it''s late';
SELECT part FROM items WHERE qty < ord ORDER BY 1;
SELECT ord FROM items WHERE -2 = qty AND 'a' < 'b';
SELECT COUNT(*) FROM items WHERE 1 = 2;
