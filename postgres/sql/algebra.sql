-- Union, intersection, difference, symmetric difference, complement.
SELECT a, b, a + b AS union, a * b AS intersection, a - b AS difference, a # b AS either
FROM (VALUES
    ('1..=5'::range_set, '6..=9'::range_set),
    ('1..=5', '3..=9'),
    ('1..=9', '4..=5'),
    ('', '1..=2'),
    ('1..=2, 5..=6, 9..=10', '2..=5, 10..=12')) AS v(a, b);
SELECT ~'1..=5'::range_set4 AS outside, ~''::range_set4 AS all_of_it, ~(~'1..=5'::range_set4) AS same;
SELECT ~'-2147483648..=0, 2147483647'::range_set4 AS ends;
-- At the ends of the type.
SELECT '9223372036854775806'::range_set + '9223372036854775807'::range_set AS greatest,
    '-9223372036854775808'::range_set - '-9223372036854775808'::range_set AS none;
