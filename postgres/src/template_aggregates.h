/*
 * Aggregates. Their state is a set in the aggregate's own memory context. Two states are combined
 * as two sets are, so the rows may be split in any way among parallel workers.
 */

typedef struct State
{
	MemoryContext context;
	SET			set;
} State;

/* Returns the memory context of the aggregate that calls. */
static MemoryContext
context_of_aggregate(FunctionCallInfo fcinfo)
{
	MemoryContext context;

	if (!AggCheckCallContext(fcinfo, &context))
		elog(ERROR, "function of an aggregate of %s called outside of one", TYPE_NAME);
	return context;
}

/* Returns a new state with the empty set. */
static State *
new_state(FunctionCallInfo fcinfo)
{
	MemoryContext context = context_of_aggregate(fcinfo);
	State	   *state = MemoryContextAllocZero(context, sizeof(State));

	state->context = context;
	return state;
}

/* Returns the state of a call, which is new if there is none. */
static State *
state_of(FunctionCallInfo fcinfo)
{
	return PG_ARGISNULL(0) ? new_state(fcinfo) : (State *) PG_GETARG_POINTER(0);
}

/* A call of the library that changes a set by another one. */
typedef uint32 (*Change) (SET *set, const SET *other);

/* Changes the set of a state by another set. */
static void
change(State *state, Change by, const SET *other)
{
	MemoryContext before = MemoryContextSwitchTo(state->context);

	check_memory(by(&state->set, other));
	MemoryContextSwitchTo(before);
}

/* Adds all from first to last to the set of a state. */
static void
add_run(State *state, ELEMENT first, ELEMENT last)
{
	MemoryContext before = MemoryContextSwitchTo(state->context);

	check_memory(CALL(insert_range) (&state->set, first, last));
	MemoryContextSwitchTo(before);
}

/* Returns a state with the set of a value. */
static State *
state_with(FunctionCallInfo fcinfo, Datum value)
{
	State	   *state = new_state(fcinfo);
	MemoryContext before = MemoryContextSwitchTo(state->context);

	state->set = set_of(value);
	MemoryContextSwitchTo(before);
	return state;
}

SQL_FUNCTION(FN(agg_element))
{
	State	   *state = state_of(fcinfo);

	if (!PG_ARGISNULL(1))
	{
		ELEMENT		value = ELEMENT_FROM(PG_GETARG_DATUM(1));

		add_run(state, value, value);
	}
	PG_RETURN_POINTER(state);
}

SQL_FUNCTION(FN(agg_range))
{
	State	   *state = state_of(fcinfo);
	RUN			run;

	if (!PG_ARGISNULL(1) && run_of_range(PG_GETARG_RANGE_P(1), &run))
		add_run(state, run.first, run.last);
	PG_RETURN_POINTER(state);
}

SQL_FUNCTION(FN(agg_union))
{
	State	   *state = state_of(fcinfo);

	if (!PG_ARGISNULL(1))
	{
		SET			set = set_of(PG_GETARG_DATUM(1));

		change(state, CALL(union_with), &set);
		CALL(free) (&set);
	}
	PG_RETURN_POINTER(state);
}

/* Without a state, no set has been read: the first one is the intersection so far. */
SQL_FUNCTION(FN(agg_intersection))
{
	State	   *state;
	SET			set;

	if (PG_ARGISNULL(1))
	{
		if (PG_ARGISNULL(0))
			PG_RETURN_NULL();
		PG_RETURN_POINTER(PG_GETARG_POINTER(0));
	}
	if (PG_ARGISNULL(0))
		PG_RETURN_POINTER(state_with(fcinfo, PG_GETARG_DATUM(1)));
	state = (State *) PG_GETARG_POINTER(0);
	set = set_of(PG_GETARG_DATUM(1));
	change(state, CALL(intersect_with), &set);
	CALL(free) (&set);
	PG_RETURN_POINTER(state);
}

/* Combines two states. If there is only one, it is copied if another context has it. */
static Datum
combined_states(FunctionCallInfo fcinfo, Change by)
{
	State	   *other;
	State	   *state;

	if (PG_ARGISNULL(1))
	{
		if (PG_ARGISNULL(0))
			PG_RETURN_NULL();
		PG_RETURN_POINTER(PG_GETARG_POINTER(0));
	}
	other = (State *) PG_GETARG_POINTER(1);
	if (PG_ARGISNULL(0))
	{
		state = new_state(fcinfo);
		change(state, CALL(clone), &other->set);
		PG_RETURN_POINTER(state);
	}
	state = (State *) PG_GETARG_POINTER(0);
	change(state, by, &other->set);
	PG_RETURN_POINTER(state);
}

SQL_FUNCTION(FN(combine_unions))
{
	return combined_states(fcinfo, CALL(union_with));
}

SQL_FUNCTION(FN(combine_intersections))
{
	return combined_states(fcinfo, CALL(intersect_with));
}

SQL_FUNCTION(FN(serialize))
{
	(void) context_of_aggregate(fcinfo);
	PG_RETURN_DATUM(bytes_of(&((State *) PG_GETARG_POINTER(0))->set));
}

SQL_FUNCTION(FN(deserialize))
{
	PG_RETURN_POINTER(state_with(fcinfo, PG_GETARG_DATUM(0)));
}

SQL_FUNCTION(FN(agg_final))
{
	if (PG_ARGISNULL(0))
		PG_RETURN_NULL();
	PG_RETURN_DATUM(bytes_of(&((State *) PG_GETARG_POINTER(0))->set));
}
