/* Casts from and to ranges, multiranges and arrays. */
#include "utils/array.h"
#include "utils/multirangetypes.h"

/* Returns the set of some runs. */
static Datum
datum_of_runs(const RUN *runs, size_t count)
{
	SET			set = RSB_EMPTY;

	check_memory(CALL(from_runs) (&set, runs, count));
	return datum_of(&set);
}

/* Allocates an array of runs. */
static RUN *
new_runs(size_t count)
{
	return MemoryContextAllocHuge(CurrentMemoryContext, (count + 1) * sizeof(RUN));
}

SQL_FUNCTION(FN(from_range))
{
	RUN			run;
	size_t		count = run_of_range(PG_GETARG_RANGE_P(0), &run) ? 1 : 0;

	PG_RETURN_DATUM(datum_of_runs(&run, count));
}

SQL_FUNCTION(FN(from_multirange))
{
	MultirangeType *multirange = PG_GETARG_MULTIRANGE_P(0);
	RangeType **ranges;
	int32		count;
	size_t		filled = 0;
	RUN		   *runs;

	multirange_deserialize(range_type(), multirange, &count, &ranges);
	runs = new_runs(count);
	for (int32 i = 0; i < count; i++)
	{
		if (run_of_range(ranges[i], &runs[filled]))
			filled++;
	}
	PG_RETURN_DATUM(datum_of_runs(runs, filled));
}

SQL_FUNCTION(FN(to_multirange))
{
	SET			set = set_of(PG_GETARG_DATUM(0));
	size_t		count = CALL(run_count) (&set);
	RUN		   *runs = new_runs(count);
	RangeType **ranges;

	if (count > MaxAllocSize / sizeof(RangeType *))
		ereport(ERROR,
				(errcode(ERRCODE_PROGRAM_LIMIT_EXCEEDED),
				 errmsg("%zu runs are too many for a multirange", count)));
	ranges = palloc((count + 1) * sizeof(RangeType *));
	(void) CALL(runs_in) (&set, LEAST, GREATEST, runs, count);
	CALL(free) (&set);
	for (size_t i = 0; i < count; i++)
		ranges[i] = range_of_run(&runs[i]);
	PG_RETURN_MULTIRANGE_P(make_multirange(MULTIRANGE_OID, range_type(), (int32) count, ranges));
}

SQL_FUNCTION(FN(from_array))
{
	ArrayType  *array = PG_GETARG_ARRAYTYPE_P(0);
	int			count = ArrayGetNItems(ARR_NDIM(array), ARR_DIMS(array));
	const ELEMENT *elements = (const ELEMENT *) ARR_DATA_PTR(array);
	RUN		   *runs = new_runs(count);

	if (array_contains_nulls(array))
		ereport(ERROR,
				(errcode(ERRCODE_NULL_VALUE_NOT_ALLOWED),
				 errmsg("the array must not contain nulls")));
	for (int i = 0; i < count; i++)
		runs[i].first = runs[i].last = elements[i];
	PG_RETURN_DATUM(datum_of_runs(runs, count));
}
