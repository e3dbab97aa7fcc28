-- Equality, order and hash. Sets compare as the ascending lists of their members.
SELECT '1, 2, 3'::range_set = '1..=3'::range_set AS equal, '1..=3'::range_set <> '1..=4'::range_set AS different;
SELECT s FROM (VALUES ('1..=2, 9'::range_set), ('1..=4'), (''), ('1..=2'), ('-5'), ('2')) AS v(s) ORDER BY s;
SELECT s, count(*) FROM (VALUES ('1, 2'::range_set), ('1..=2'), ('3')) AS v(s) GROUP BY s ORDER BY s;
SELECT count(*) FROM (VALUES ('1, 2'::range_set), ('3')) AS a(s) JOIN (VALUES ('1..=2'::range_set), ('4')) AS b(s) USING (s);
CREATE TABLE keyed (s range_set4 PRIMARY KEY);
INSERT INTO keyed VALUES ('1..=3'), ('5');
INSERT INTO keyed VALUES ('1, 2, 3');
SELECT s FROM keyed WHERE s = '1, 2..=3' ;
DROP TABLE keyed;
-- One set in another, and common members.
SELECT a, b, a @> b AS contains, a <@ b AS contained, a && b AS overlaps
FROM (VALUES ('1..=9'::range_set, '2..=3, 5'::range_set), ('1..=3', '3..=4'), ('1..=3', '4'), ('', ''), ('1', '')) AS v(a, b);
