CREATE TABLE notes (id INT, who TEXT, note TEXT);
IMPORT INTO notes LINES 5;
1,Ann,"bread, milk"
2,"Bob","he said ""no"""
"3",Cy,"first line
second line"
4,"","it's "quoted" late"
SELECT note FROM notes WHERE id = 3;
SELECT id, who, note FROM notes WHERE id <> 3 ORDER BY id;
IMPORT INTO notes LINES 6;

5,Di,five

6,Ed,"six

six"
SELECT COUNT(*) FROM notes;
IMPORT INTO notes LINES 4;

7,Flo,"seven

8
IMPORT INTO notes LINES 5;
7,Flo,"seven

seven"

8,Gus
IMPORT INTO notes LINES 1;
eight,"Gus"
SELECT who FROM notes WHERE id >= 5 ORDER BY who;
