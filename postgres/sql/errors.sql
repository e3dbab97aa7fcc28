-- What is refused, and how.
SELECT 'one'::range_set;
SELECT '1..=2147483648'::range_set4;
SELECT '1..=2..=3'::range_set;
SELECT first_gap('1'::range_set, 0);
SELECT ARRAY[1, NULL]::bigint[]::range_set;
-- A range whose end is before its start has no elements.
SELECT '5..=1'::range_set AS none;
-- Received bytes that are no set's: cut short, of another width, too long.
CREATE FUNCTION received(bytea) RETURNS text LANGUAGE plpgsql AS $$
DECLARE
    message text;
BEGIN
    EXECUTE format('COPY (SELECT %L::bytea) TO %L WITH (FORMAT binary)', $1, '/tmp/range_set_regress.bin');
    CREATE TEMP TABLE room (s range_set) ON COMMIT DROP;
    COPY room FROM '/tmp/range_set_regress.bin' WITH (FORMAT binary);
    SELECT s INTO message FROM room;
    DROP TABLE room;
    RETURN message;
EXCEPTION WHEN invalid_binary_representation THEN
    GET STACKED DIAGNOSTICS message = PG_EXCEPTION_DETAIL;
    RETURN SQLERRM || '. ' || message;
END $$;
SELECT received(range_set_send('1..=5'));
SELECT received('\xF55253420140');
SELECT received('\xF5525342012000');
SELECT received('\xF5525342014000FF');
-- Stored bytes that are no set's, as a broken disk gives them. This cast checks nothing.
CREATE CAST (bytea AS range_set) WITHOUT FUNCTION;
SELECT run_count('\xF55253420140'::bytea::range_set);
\set VERBOSITY sqlstate
SELECT cardinality('\x00'::bytea::range_set);
SELECT range_set_out('\xF552534201400100'::bytea::range_set);
SELECT union_agg('\x00'::bytea::range_set);
SELECT '\x00'::bytea::range_set = '\x00'::bytea::range_set AS equal;
\set VERBOSITY default
DROP FUNCTION received;
DROP CAST (bytea AS range_set);
DROP EXTENSION range_set;
