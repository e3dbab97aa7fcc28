/* Functions that return a row for each run, gap or element. */
#include "funcapi.h"

/* How many runs a walk reads at a time. */
#define RUNS_AT_ONCE 64

/* A walk over the ranges or elements of a set. */
typedef struct Walk
{
	SET			set;
	RUN			runs[RUNS_AT_ONCE];
	size_t		read;			/* how many of `runs` are filled */
	size_t		used;			/* how many of these have been returned */
	ELEMENT		next;			/* where the next ones are read */
	bool		has_ended;		/* whether none is left to read */
} Walk;

/* Begins a walk over a set, or over its complement. */
static Walk *
begin_walk(FunctionCallInfo fcinfo, FuncCallContext *calls, bool over_gaps)
{
	MemoryContext before = MemoryContextSwitchTo(calls->multi_call_memory_ctx);
	Walk	   *walk = palloc0(sizeof(Walk));
	SET			set = set_of(PG_GETARG_DATUM(0));

	walk->next = LEAST;
	walk->set = set;
	if (over_gaps)
	{
		memset(&walk->set, 0, sizeof(SET));
		check_memory(CALL(complement) (&walk->set, &set));
		CALL(free) (&set);
	}
	MemoryContextSwitchTo(before);
	return walk;
}

/* Reads the next runs of a walk if those that it has were used. Returns whether there is one. */
static bool
has_run(Walk *walk)
{
	if (walk->used < walk->read)
		return true;
	if (walk->has_ended)
		return false;
	walk->read = CALL(runs_in) (&walk->set, walk->next, GREATEST, walk->runs, RUNS_AT_ONCE);
	walk->used = 0;
	walk->has_ended = walk->read < RUNS_AT_ONCE
		|| walk->runs[RUNS_AT_ONCE - 1].last == GREATEST;
	if (!walk->has_ended)
		walk->next = walk->runs[RUNS_AT_ONCE - 1].last + 1;
	return walk->read > 0;
}

/* Returns the next run of a set, or of its complement, as a row. */
static Datum
next_run_row(FunctionCallInfo fcinfo, bool over_gaps)
{
	FuncCallContext *calls;
	Walk	   *walk;

	if (SRF_IS_FIRSTCALL())
	{
		calls = SRF_FIRSTCALL_INIT();
		calls->user_fctx = begin_walk(fcinfo, calls, over_gaps);
	}
	calls = SRF_PERCALL_SETUP();
	walk = calls->user_fctx;
	if (!has_run(walk))
		SRF_RETURN_DONE(calls);
	SRF_RETURN_NEXT(calls, RangeTypePGetDatum(range_of_run(&walk->runs[walk->used++])));
}

SQL_FUNCTION(FN(runs))
{
	return next_run_row(fcinfo, false);
}

SQL_FUNCTION(FN(gaps))
{
	return next_run_row(fcinfo, true);
}

SQL_FUNCTION(FN(elements))
{
	FuncCallContext *calls;
	Walk	   *walk;
	RUN		   *run;
	ELEMENT		value;

	if (SRF_IS_FIRSTCALL())
	{
		calls = SRF_FIRSTCALL_INIT();
		calls->user_fctx = begin_walk(fcinfo, calls, false);
	}
	calls = SRF_PERCALL_SETUP();
	walk = calls->user_fctx;
	if (!has_run(walk))
		SRF_RETURN_DONE(calls);
	run = &walk->runs[walk->used];
	value = run->first;
	if (value == run->last)
		walk->used++;
	else
		run->first++;
	SRF_RETURN_NEXT(calls, ELEMENT_DATUM(value));
}
