-- Questions about one set.
SELECT s @> 3::bigint AS has_3, 4::bigint <@ s AS has_4, s @> int8range(1, 4) AS has_1_to_3, int8range(1, 5) <@ s AS has_1_to_4,
    s && int8range(4, 7) AS meets_4_to_6, int8range(4, 6) && s AS meets_4_to_5
FROM (VALUES ('1..=3, 6..=8'::range_set)) AS v(s);
SELECT s @> 'empty'::int4range AS has_none, s && 'empty'::int4range AS meets_none, s @> '[6,)'::int4range AS has_all_from_6,
    s && '(,0]'::int4range AS meets_below FROM (VALUES ('6..=2147483647'::range_set4)) AS v(s);
SELECT cardinality(s), run_count(s), first(s), last(s), isempty(s)
FROM (VALUES (''::range_set), ('1..=5, 9'), (~''::range_set)) AS v(s);
SELECT cardinality(~''::range_set4);
SELECT n, nth(s, n), rank(s, n) FROM (VALUES ('-2..=1, 5'::range_set)) AS v(s), generate_series(-1, 6) AS n;
-- The first gap of a length, from a value on.
SELECT first_gap(s, 1) AS lowest, first_gap(s, 2, 0) AS two_from_0, first_gap(s, 1, 2) AS one_from_2, first_gap(s, 1, 9) AS from_9
FROM (VALUES ('0..=3, 5..=9'::range_set)) AS v(s);
SELECT first_gap('0..=9223372036854775807'::range_set, 1, 5) AS none;
-- Rows.
SELECT runs('1..=5, 9..=9223372036854775807'::range_set);
SELECT gaps('1..=5'::range_set4);
SELECT elements('1..=3, 7, 2147483647'::range_set4);
SELECT count(*), min(lower(r)), max(upper(r)) FROM (SELECT runs(range_set_agg(x * 2)) AS r FROM generate_series(1, 1000) x) AS q;
SELECT count(*), sum(e) FROM (SELECT elements('1..=1000, 2001..=3000'::range_set) AS e) AS q;
-- A set that is asked about many rows, and sets that differ from row to row.
CREATE TABLE kept AS SELECT i, range_set_agg(x * (i + 1)) AS s FROM generate_series(1, 3) i, generate_series(1, 20000) x GROUP BY i;
SELECT i, count(*) FROM kept, generate_series(1::bigint, 12) v WHERE s @> v GROUP BY i ORDER BY i;
SELECT v, count(*) FROM generate_series(1::bigint, 12) v, kept WHERE s @> v GROUP BY v ORDER BY v;
SELECT count(*) FROM generate_series(1::bigint, 100) v WHERE (SELECT s FROM kept WHERE i = 2) @> v;
SELECT a.i, b.i FROM kept a, kept b WHERE a.s && b.s AND NOT a.s = b.s ORDER BY 1, 2;
DROP TABLE kept;
