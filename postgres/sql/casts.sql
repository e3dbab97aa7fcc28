-- Casts. A range that reaches the greatest value has no upper bound.
SELECT s, s::int8multirange AS multirange, s::int8multirange::range_set = s AS same
FROM (VALUES ('1..=5, 7'::range_set), (''), ('9223372036854775806..=9223372036854775807'), ('-9223372036854775808')) AS v(s);
SELECT m, m::range_set4 FROM (VALUES ('{[1,3),[5,6)}'::int4multirange), ('{}'), ('{(,-2147483647)}'), ('{(,)}'), ('{[2147483647,)}')) AS v(m);
SELECT int8range(1, 5)::range_set AS range, 'empty'::int4range::range_set4 AS empty, '(,)'::int8range::range_set = ~''::range_set AS all_of_it;
SELECT ARRAY[5, 1, 2, 5]::range_set4 AS members, '{}'::bigint[]::range_set AS none, ARRAY[ARRAY[1, 2], ARRAY[3, 9]]::bigint[]::range_set AS of_rows;
-- No bigint is below the least one.
SELECT '(,-9223372036854775808)'::int8range::range_set AS none;
CREATE TABLE assigned (s range_set, m int8multirange);
INSERT INTO assigned VALUES (int8range(1, 5), '1..=4'::range_set);
SELECT * FROM assigned;
DROP TABLE assigned;
