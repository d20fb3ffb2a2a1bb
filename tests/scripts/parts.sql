1 CREATE TABLE t(a INTEGER, b TEXT)
1 INSERT INTO t VALUES (1, 'row 01 of a table that takes some pages'), (2, 'row 02 of a table that takes some pages'), (3, 'row 03 of a table that takes some pages'), (4, 'row 04 of a table that takes some pages'), (5, 'row 05 of a table that takes some pages'), (6, 'row 06 of a table that takes some pages'), (7, 'row 07 of a table that takes some pages'), (8, 'row 08 of a table that takes some pages'), (9, 'row 09 of a table that takes some pages'), (10, 'row 10 of a table that takes some pages')
1 INSERT INTO t VALUES (11, 'row 11 of a table that takes some pages'), (12, 'row 12 of a table that takes some pages'), (13, 'row 13 of a table that takes some pages'), (14, 'row 14 of a table that takes some pages'), (15, 'row 15 of a table that takes some pages'), (16, 'row 16 of a table that takes some pages'), (17, 'row 17 of a table that takes some pages'), (18, 'row 18 of a table that takes some pages'), (19, 'row 19 of a table that takes some pages'), (20, 'row 20 of a table that takes some pages')
1 INSERT INTO t VALUES (21, 'row 21 of a table that takes some pages'), (22, 'row 22 of a table that takes some pages'), (23, 'row 23 of a table that takes some pages'), (24, 'row 24 of a table that takes some pages'), (25, 'row 25 of a table that takes some pages'), (26, 'row 26 of a table that takes some pages'), (27, 'row 27 of a table that takes some pages'), (28, 'row 28 of a table that takes some pages'), (29, 'row 29 of a table that takes some pages'), (30, 'row 30 of a table that takes some pages')
1 CREATE VIEW v(n, s) AS SELECT a + 1, b || '!' FROM t WHERE a > 2
1 SELECT count(*), sum(n), min(s), max(s) FROM v
1 SELECT n FROM v WHERE n = 17
1 SELECT n, s FROM v WHERE n > 28 ORDER BY n DESC LIMIT 2
1 SELECT DISTINCT n % 3 FROM v
1 SELECT n % 3, count(*) FROM v GROUP BY n % 3
1 CREATE VIEW c AS SELECT b, a FROM t
1 CREATE VIEW w(m) AS SELECT a * 2 FROM c WHERE b < 'row 20'
1 SELECT count(*), max(m) FROM w
1 SELECT m FROM w WHERE m > 30 AND m < 38
1 CREATE VIEW d AS SELECT m + 1 AS k FROM w WHERE m > 10
1 SELECT count(k), min(k), sum(k) FROM d
1 CREATE VIEW l AS SELECT a + 0 AS a FROM t LIMIT 3
1 SELECT count(*), sum(a) FROM l
1 CREATE VIEW o AS SELECT a + 0 AS a FROM t ORDER BY a DESC
1 SELECT a FROM o LIMIT 2
1 SELECT x.m, y.m FROM w AS x, w AS y WHERE x.m = y.m AND x.m > 34
1 SELECT m, k FROM w LEFT JOIN d ON k = m + 1 WHERE m < 14 AND m > 8
1 SELECT sum(s) FROM v
1 INSERT INTO t VALUES (9223372036854775807, 'the last')
1 SELECT sum(s) FROM v
1 SELECT count(*) FROM v
1 SELECT n FROM v WHERE n = 4
1 SELECT sum(m) FROM w WHERE m + 9223372036854775807 > 0
1 SELECT count(*) FROM w WHERE m > 2
