-- Text and bytes in and out.
CREATE EXTENSION range_set;
SELECT '1..=5, 10, -3..=0'::range_set AS joined, ''::range_set AS empty, ' 7 '::range_set4 AS one;
SELECT '-9223372036854775808..=9223372036854775807'::range_set AS all_of_bigint;
SELECT '-2147483648..=2147483647'::range_set4 AS all_of_integer;
-- What is written is read as the same set.
SELECT s, s::text::range_set = s AS same FROM (VALUES ('1..=5, 7..=9'::range_set), (''), ('-1')) AS v(s);
-- The bytes of a set. The rank of -1 is 2^63 - 1.
SELECT range_set_send('-1..=300') AS bytes;
SELECT range_set4_send('') AS bytes;
-- Binary copies.
CREATE TABLE sets (s range_set, t range_set4);
INSERT INTO sets VALUES ('1..=5, 7', '-4..=-2'), ('', ''), (NULL, NULL),
    ('-9223372036854775808, 9223372036854775807', '-2147483648, 2147483647');
COPY sets TO '/tmp/range_set_regress.bin' WITH (FORMAT binary);
CREATE TABLE copies (LIKE sets);
COPY copies FROM '/tmp/range_set_regress.bin' WITH (FORMAT binary);
SELECT * FROM copies;
-- A large value is compressed or moved out of its row, and comes back whole.
CREATE TABLE large AS SELECT range_set_agg(x * 3) AS s FROM generate_series(1, 50000) x;
SELECT pg_column_size(s) < 110000 AS is_small, run_count(s), cardinality(s), first(s), last(s) FROM large;
DROP TABLE sets, copies, large;
