-- Queries that fail keep no memory: neither while they read a set, nor in the middle of an aggregate.
CREATE EXTENSION range_set;
CREATE CAST (bytea AS range_set) WITHOUT FUNCTION;
CREATE FUNCTION failed(query text, times int) RETURNS int LANGUAGE plpgsql AS $$
DECLARE
    failures int := 0;
BEGIN
    FOR i IN 1..times LOOP
        BEGIN
            EXECUTE query;
        EXCEPTION WHEN data_corrupted OR division_by_zero OR invalid_text_representation THEN
            failures := failures + 1;
        END;
    END LOOP;
    RETURN failures;
END $$;
CREATE FUNCTION memory_in_use() RETURNS bigint LANGUAGE sql AS $$
    SELECT sum(used_bytes)::bigint FROM pg_backend_memory_contexts
$$;
CREATE TABLE numbers AS SELECT x::bigint * 3 AS x FROM generate_series(1, 3000) x;
CREATE TABLE sides AS SELECT range_set_agg(x) AS s, range_set_agg(x + 1) AS t FROM numbers;
CREATE FUNCTION all_failures(times int) RETURNS int[] LANGUAGE sql AS $$
    SELECT ARRAY[
        failed($q$SELECT run_count(overlay(range_set_send(s) PLACING '\xFFFF' FROM 4000)::range_set) FROM sides$q$, times),
        failed($q$SELECT range_set_agg(x / (x - 6000)) FROM numbers$q$, times),
        failed($q$SELECT union_agg(v) FROM (SELECT s + t AS v FROM sides UNION ALL SELECT '\x00'::bytea::range_set) AS q$q$, times),
        failed($q$SELECT s + ('1..=5, ' || 'x')::range_set FROM sides$q$, times)]
$$;
SELECT all_failures(20);
SELECT memory_in_use() AS before \gset
SELECT all_failures(1000);
SELECT memory_in_use() - :before < 100000 AS keeps_nothing;
-- A query that is cancelled.
SET statement_timeout = '20ms';
SELECT count(*) FROM (SELECT range_set_agg(a.x * b.x) AS s FROM numbers a, numbers b) AS q;
RESET statement_timeout;
SELECT memory_in_use() - :before < 100000 AS keeps_nothing;
DROP TABLE numbers, sides CASCADE;
DROP FUNCTION failed, memory_in_use, all_failures;
DROP CAST (bytea AS range_set);
DROP EXTENSION range_set;
