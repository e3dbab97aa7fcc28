/* Queries on one set. */

/* Whether the set at one place has the element at the other. */
static Datum
has_element(FunctionCallInfo fcinfo, int set_at, int element_at)
{
	SET			room = RSB_EMPTY;
	bool		found = CALL(contains) (argument(fcinfo, set_at, &room),
										ELEMENT_FROM(PG_GETARG_DATUM(element_at)));

	CALL(free) (&room);
	PG_RETURN_BOOL(found);
}

/* Whether the set at one place has the whole range at the other. */
static Datum
has_range(FunctionCallInfo fcinfo, int set_at, int range_at)
{
	SET			room = RSB_EMPTY;
	const SET  *set = argument(fcinfo, set_at, &room);
	RUN			run;
	bool		found = !run_of_range(PG_GETARG_RANGE_P(range_at), &run)
		|| CALL(contains_range) (set, run.first, run.last);

	CALL(free) (&room);
	PG_RETURN_BOOL(found);
}

/* Whether the set at one place has an element of the range at the other. */
static Datum
meets_range(FunctionCallInfo fcinfo, int set_at, int range_at)
{
	SET			room = RSB_EMPTY;
	const SET  *set = argument(fcinfo, set_at, &room);
	RUN			run;
	bool		found = run_of_range(PG_GETARG_RANGE_P(range_at), &run)
		&& !CALL(is_disjoint_range) (set, run.first, run.last);

	CALL(free) (&room);
	PG_RETURN_BOOL(found);
}

SQL_FUNCTION(FN(contains_element))
{
	return has_element(fcinfo, 0, 1);
}

SQL_FUNCTION(FN(element_contained_by))
{
	return has_element(fcinfo, 1, 0);
}

SQL_FUNCTION(FN(contains_range))
{
	return has_range(fcinfo, 0, 1);
}

SQL_FUNCTION(FN(range_contained_by))
{
	return has_range(fcinfo, 1, 0);
}

SQL_FUNCTION(FN(overlaps_range))
{
	return meets_range(fcinfo, 0, 1);
}

SQL_FUNCTION(FN(range_overlaps))
{
	return meets_range(fcinfo, 1, 0);
}

SQL_FUNCTION(FN(is_empty))
{
	SET			room = RSB_EMPTY;
	bool		is_empty = CALL(run_count) (argument(fcinfo, 0, &room)) == 0;

	CALL(free) (&room);
	PG_RETURN_BOOL(is_empty);
}

SQL_FUNCTION(FN(run_count))
{
	SET			room = RSB_EMPTY;
	size_t		runs = CALL(run_count) (argument(fcinfo, 0, &room));

	CALL(free) (&room);
	PG_RETURN_INT64((int64) runs);
}

SQL_FUNCTION(FN(cardinality))
{
	SET			room = RSB_EMPTY;
	Datum		count = COUNT_DATUM(CALL(len) (argument(fcinfo, 0, &room)));

	CALL(free) (&room);
	return count;
}

SQL_FUNCTION(FN(rank))
{
	SET			room = RSB_EMPTY;
	Datum		count = COUNT_DATUM(CALL(rank) (argument(fcinfo, 0, &room),
												ELEMENT_FROM(PG_GETARG_DATUM(1))));

	CALL(free) (&room);
	return count;
}

/* Returns an element that was found, or null. */
static Datum
element_or_null(FunctionCallInfo fcinfo, bool found, ELEMENT value)
{
	if (!found)
		PG_RETURN_NULL();
	return ELEMENT_DATUM(value);
}

SQL_FUNCTION(FN(nth))
{
	SET			room = RSB_EMPTY;
	const SET  *set = argument(fcinfo, 0, &room);
	int64		n = PG_GETARG_INT64(1);
	ELEMENT		value = 0;
	bool		found = n >= 0 && CALL(nth) (set, (uint64) n, &value);

	CALL(free) (&room);
	return element_or_null(fcinfo, found, value);
}

SQL_FUNCTION(FN(first))
{
	SET			room = RSB_EMPTY;
	ELEMENT		value = 0;
	bool		found = CALL(first) (argument(fcinfo, 0, &room), &value);

	CALL(free) (&room);
	return element_or_null(fcinfo, found, value);
}

SQL_FUNCTION(FN(last))
{
	SET			room = RSB_EMPTY;
	ELEMENT		value = 0;
	bool		found = CALL(last) (argument(fcinfo, 0, &room), &value);

	CALL(free) (&room);
	return element_or_null(fcinfo, found, value);
}

SQL_FUNCTION(FN(first_gap))
{
	SET			room = RSB_EMPTY;
	const SET  *set = argument(fcinfo, 0, &room);
	int64		length = PG_GETARG_INT64(1);
	ELEMENT		from = ELEMENT_FROM(PG_GETARG_DATUM(2));
	RUN			gap;
	bool		found;

	if (length < 1)
		ereport(ERROR,
				(errcode(ERRCODE_INVALID_PARAMETER_VALUE),
				 errmsg("the length of a gap must be at least 1")));
	found = CALL(first_gap) (set, from, (uint64) length, &gap);
	CALL(free) (&room);
	if (!found)
		PG_RETURN_NULL();
	PG_RETURN_RANGE_P(range_of_run(&gap));
}
