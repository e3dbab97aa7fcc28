-- Compares each operator with that of int8multirange on 100,000 random pairs, and counts differences.
-- A third of the pairs lie at the least values of bigint, a third at the greatest, a third around 0.
CREATE EXTENSION range_set;
SELECT setseed(0.25);

-- A random multirange with up to five ranges, of which some reach the end of the type.
CREATE FUNCTION random_multirange(base bigint) RETURNS int8multirange LANGUAGE sql VOLATILE AS $$
    SELECT coalesce(range_agg(CASE
        WHEN base > 0 AND random() < 0.1 THEN int8range(base + (random() * 30)::bigint, NULL)
        WHEN base < 0 AND random() < 0.1 THEN int8range(NULL, base + 1 + (random() * 30)::bigint)
        ELSE int8range(base + low, base + low + (random() * 8)::bigint) END), '{}')
    FROM (SELECT (random() * 30)::bigint AS low FROM generate_series(1, (random() * 5)::int)) AS lows
$$;

-- For PostgreSQL, a range without a lower bound has more than one that begins at the least bigint. So the pairs
-- have the latter, as casts from range_set do; the first check is about the others too.
CREATE TABLE pairs AS
    SELECT raw, raw::range_set::int8multirange AS a, b::range_set::int8multirange AS b, raw::range_set AS s, b::range_set AS t,
        base + (random() * 40)::bigint AS value,
        int8range(base + low, base + low + (random() * 6)::bigint) AS range
    FROM (SELECT (ARRAY[-9223372036854775808, 0, 9223372036854775807 - 50])[i % 3 + 1] AS base, (random() * 35)::bigint AS low
        FROM generate_series(1, 100000) i) AS bases,
        LATERAL (SELECT random_multirange(base) AS raw, random_multirange(base) AS b) AS both_of;

-- Elements of a small set, which compare as arrays do.
CREATE FUNCTION elements_below(s range_set, n bigint) RETURNS bigint[] LANGUAGE sql IMMUTABLE AS $$
    SELECT ARRAY(SELECT e FROM (SELECT elements(s) AS e LIMIT n) AS q)
$$;

CREATE TABLE differences AS
    SELECT 'cast' AS what, count(*) FROM pairs WHERE a::range_set <> s OR (raw @> value) <> (s @> value)
    UNION ALL SELECT '+', count(*) FROM pairs WHERE s + t <> (a + b)::range_set
    UNION ALL SELECT '*', count(*) FROM pairs WHERE s * t <> (a * b)::range_set
    UNION ALL SELECT '-', count(*) FROM pairs WHERE s - t <> (a - b)::range_set
    UNION ALL SELECT '#', count(*) FROM pairs WHERE s # t <> ((a - b) + (b - a))::range_set
    UNION ALL SELECT '~', count(*) FROM pairs WHERE ~s <> ('{(,)}'::int8multirange - a)::range_set
    UNION ALL SELECT '@>', count(*) FROM pairs WHERE (s @> t) <> (a @> b) OR (s @> value) <> (a @> value) OR (s @> range) <> (a @> range)
    UNION ALL SELECT '<@', count(*) FROM pairs WHERE (s <@ t) <> (a <@ b) OR (value <@ s) <> (value <@ a) OR (range <@ s) <> (range <@ a)
    UNION ALL SELECT '&&', count(*) FROM pairs WHERE (s && t) <> (a && b) OR (s && range) <> (a && range) OR (range && s) <> (range && a)
    UNION ALL SELECT '=', count(*) FROM pairs WHERE (s = t) <> ((a - b) + (b - a) = '{}') OR (s <> t) = (s = t)
    UNION ALL SELECT '<', count(*) FROM pairs WHERE cardinality(s + t) < 100
        AND ((s < t) <> (elements_below(s, 100) < elements_below(t, 100)) OR (s <= t) <> (s < t OR s = t) OR (s > t) <> (t < s) OR (s >= t) <> (t <= s))
    UNION ALL SELECT 'runs', count(*) FROM pairs WHERE run_count(s) <> (SELECT count(*) FROM runs(s)) OR isempty(s) <> isempty(a);

\if :{?quiet}
\else
SELECT * FROM differences;
\endif
DO $$ BEGIN
    IF (SELECT sum(count) FROM differences) > 0 THEN RAISE EXCEPTION 'some operators differ from int8multirange'; END IF;
END $$;
DROP TABLE pairs, differences;
DROP EXTENSION range_set CASCADE;
