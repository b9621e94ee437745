CREATE TABLE author (id INT PRIMARY KEY, name TEXT, born INT);
CREATE TABLE book (id INT PRIMARY KEY, title TEXT, author INT, pages INT);
INSERT INTO author VALUES (1, 'Mary Shelley', 1797), (2, 'Jules Verne', 1828), (3, 'Anonymous', NULL);
INSERT INTO book VALUES (10, 'Frankenstein', 1, 280), (11, 'The Last Man', 1, 342), (12, 'Around the World in Eighty Days', 2, 320);
INSERT INTO book (id, title, author) VALUES (13, 'The Mummy''s Foot', 3);
SELECT title, name FROM book JOIN author ON author.id = book.author ORDER BY title;
SELECT name FROM author WHERE born IS NULL;
SELECT COUNT(*), COUNT(pages), SUM(pages), MIN(pages), MAX(pages) FROM book;
SELECT title, pages FROM book WHERE pages > 300 ORDER BY pages DESC LIMIT 1;
