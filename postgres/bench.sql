-- Times the extension beside int8multirange: the same question, the best of three times each, in milliseconds.
\set QUIET on
CREATE EXTENSION range_set;
SET max_parallel_workers_per_gather = 0;
SET jit = off;

CREATE FUNCTION milliseconds(query text, repeats int DEFAULT 1) RETURNS numeric LANGUAGE plpgsql AS $$
DECLARE
    best double precision;
    started timestamptz;
    took double precision;
BEGIN
    FOR round IN 1..3 LOOP
        started := clock_timestamp();
        FOR i IN 1..repeats LOOP
            EXECUTE query;
        END LOOP;
        took := extract(epoch FROM clock_timestamp() - started) * 1000 / repeats;
        best := least(best, took);
    END LOOP;
    RETURN round(best::numeric, 3);
END $$;

SELECT setseed(0.5) \g /dev/null
CREATE TABLE numbers AS SELECT (random() * 10000000)::bigint AS x FROM generate_series(1, 1000000);
CREATE TABLE ranges AS SELECT int8range(x * 100, x * 100 + (random() * 50)::bigint + 1) AS r FROM generate_series(1, 100000) x ORDER BY random();
CREATE TABLE sides AS SELECT range_set_agg(r) AS s, range_agg(r) AS m,
    range_set_agg(int8range(lower(r) + 30, upper(r) + 30)) AS t, range_agg(int8range(lower(r) + 30, upper(r) + 30)) AS n FROM ranges;
-- Questions with one set and many values, and questions that read the set anew for each row.
CREATE TABLE asked AS SELECT (random() * 10000000)::bigint AS x FROM generate_series(1, 1000);
VACUUM ANALYZE;

CREATE TABLE times (line int, what text, here numeric, multirange numeric);
INSERT INTO times VALUES
    (1, 'range_set_agg and range_agg of 1,000,000 values', milliseconds('SELECT range_set_agg(x) FROM numbers'), milliseconds('SELECT range_agg(int8range(x, x + 1)) FROM numbers')),
    (2, 'range_set_agg and range_agg of 100,000 ranges', milliseconds('SELECT range_set_agg(r) FROM ranges'), milliseconds('SELECT range_agg(r) FROM ranges')),
    (3, '1,000 questions @> to one value of 100,000 runs', milliseconds('SELECT count(*) FROM asked WHERE (SELECT s FROM sides) @> x'), milliseconds('SELECT count(*) FROM asked WHERE (SELECT m FROM sides) @> x')),
    (4, 'one question @> to a stored value of 100,000 runs', milliseconds('SELECT s @> 5000000::bigint FROM sides', 5), milliseconds('SELECT m @> 5000000::bigint FROM sides', 5)),
    (5, 'union of two values of 100,000 runs', milliseconds('SELECT s + t FROM sides', 3), milliseconds('SELECT m + n FROM sides', 3)),
    (6, 'intersection of the two', milliseconds('SELECT s * t FROM sides', 3), milliseconds('SELECT m * n FROM sides', 3)),
    (7, 'difference of the two', milliseconds('SELECT s - t FROM sides', 3), milliseconds('SELECT m - n FROM sides', 3)),
    (8, 'equality of the two', milliseconds('SELECT s = t FROM sides', 20), milliseconds('SELECT m = n FROM sides', 20));
SELECT what, here, multirange, round(here / multirange, 2) AS ratio FROM times ORDER BY line;
SELECT pg_column_size(s) AS bytes_here, pg_column_size(m) AS bytes_multirange FROM sides;
SET max_parallel_workers_per_gather = 4;
SET parallel_setup_cost = 0;
SET parallel_tuple_cost = 0;
SELECT milliseconds('SELECT range_set_agg(x) FROM numbers') AS "range_set_agg with parallel workers";
