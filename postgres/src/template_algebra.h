/* Operations on sets. */

/* A call of the library that makes a set from two others. */
typedef uint32 (*Operation) (SET *out, const SET *left, const SET *right);

static Datum
combined(FunctionCallInfo fcinfo, Operation operation)
{
	SET			made = RSB_EMPTY;
	Pair		pair;

	read_pair(fcinfo, &pair);
	check_memory(operation(&made, pair.left, pair.right));
	free_pair(&pair);
	return datum_of(&made);
}

SQL_FUNCTION(FN(union))
{
	return combined(fcinfo, CALL(union));
}

SQL_FUNCTION(FN(intersection))
{
	return combined(fcinfo, CALL(intersection));
}

SQL_FUNCTION(FN(difference))
{
	return combined(fcinfo, CALL(difference));
}

SQL_FUNCTION(FN(symmetric_difference))
{
	return combined(fcinfo, CALL(symmetric_difference));
}

SQL_FUNCTION(FN(complement))
{
	SET			made = RSB_EMPTY;
	SET			set = set_of(PG_GETARG_DATUM(0));

	check_memory(CALL(complement) (&made, &set));
	CALL(free) (&set);
	return datum_of(&made);
}
