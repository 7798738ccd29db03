CREATE TABLE people (id INT, name TEXT);
IMPORT INTO people LINES 3;
1,Ann
+2,it's Bob
-3,Zoë; no statement ends here
SELECT * FROM people ORDER BY id DESC;
IMPORT INTO people LINES 0;
IMPORT INTO people LINES 1;
007,
SELECT * FROM people WHERE id > 2;
IMPORT INTO people LINES 2;
4,Dan
five,Eve
IMPORT INTO people LINES 2;
5,Eve
6
IMPORT INTO people LINES 1;
6,Fay,
IMPORT INTO people LINES 1;
9223372036854775808,Hal
IMPORT INTO nobody LINES 1;
8,Ida
IMPORT INTO people LINES -1;
SELECT COUNT(*) FROM people;
IMPORT INTO people LINES 2;
4,Dan
5,Eve
SELECT * FROM people WHERE id >= 3 ORDER BY id;
