-- Aggregates of values, ranges and sets.
SELECT range_set_agg(x) AS of_values FROM (VALUES (3::bigint), (1), (NULL), (2), (9)) AS v(x);
SELECT range_set4_agg(x) AS of_integers FROM generate_series(10, 1, -1) x;
SELECT range_set_agg(r) AS of_ranges FROM (VALUES (int8range(1, 5)), (int8range(5, 9)), ('empty'), (NULL), ('[20,)')) AS v(r);
SELECT union_agg(s), intersection_agg(s) FROM (VALUES ('1..=5'::range_set), ('4..=9'), (NULL), ('2..=7')) AS v(s);
SELECT union_agg(s), intersection_agg(s) FROM (VALUES (NULL::range_set4)) AS v(s);
SELECT range_set_agg(x) AS of_no_rows FROM (SELECT 1::bigint WHERE false) AS v(x);
SELECT g, range_set_agg(x) FROM (SELECT x % 3 AS g, x::bigint AS x FROM generate_series(1, 9) x) AS q GROUP BY g ORDER BY g;
-- As a window, each row's set has the rows before it.
SELECT x, range_set_agg(x) OVER (ORDER BY x) AS so_far FROM (VALUES (1::bigint), (2), (5)) AS v(x);
-- Parallel workers give the same set as one process.
CREATE TABLE numbers AS SELECT (x * 7919 % 100003)::bigint AS x FROM generate_series(1, 60000) x;
CREATE TABLE parts AS SELECT x % 100 AS part, range_set_agg(x) AS s FROM numbers GROUP BY x % 100;
ALTER TABLE numbers SET (parallel_workers = 4);
ALTER TABLE parts SET (parallel_workers = 4);
SET max_parallel_workers_per_gather = 0;
CREATE TABLE alone AS SELECT range_set_agg(x) AS s, range_set_agg(int8range(x, x + 3)) AS r FROM numbers;
CREATE TABLE both_alone AS SELECT union_agg(s) AS u, intersection_agg(~s) AS i FROM parts;
SET max_parallel_workers_per_gather = 4;
SET parallel_setup_cost = 0;
SET parallel_tuple_cost = 0;
SET min_parallel_table_scan_size = 0;
EXPLAIN (COSTS OFF) SELECT range_set_agg(x) FROM numbers;
SELECT range_set_agg(x) = s AS same, range_set_agg(int8range(x, x + 3)) = r AS same_ranges FROM numbers, alone GROUP BY s, r;
SELECT (SELECT range_set_agg(x) FROM numbers) = s AS same FROM alone;
SELECT (SELECT union_agg(s) FROM parts) = u AS same_union, (SELECT intersection_agg(~s) FROM parts) = i AS same_intersection FROM both_alone;
DROP TABLE numbers, parts, alone, both_alone;
