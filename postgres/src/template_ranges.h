/* Ranges of PostgreSQL, as runs of the library and back. */
#include "catalog/pg_type.h"
#include "utils/rangetypes.h"
#include "utils/typcache.h"

static TypeCacheEntry *
range_type(void)
{
	return lookup_type_cache(RANGE_OID, TYPECACHE_RANGE_INFO);
}

/* Stores the elements of a range in run and returns true, or returns false if the range has no element. */
static bool
run_of_range(const RangeType *range, RUN *run)
{
	RangeBound	lower;
	RangeBound	upper;
	bool		is_empty;

	range_deserialize(range_type(), range, &lower, &upper, &is_empty);
	/* A range of integers includes its lower bound and excludes its upper one, if it has them. A
	 * range below the least element is not empty for PostgreSQL, but has no element. */
	if (is_empty || (!upper.infinite && ELEMENT_FROM(upper.val) == LEAST))
		return false;
	run->first = lower.infinite ? LEAST : ELEMENT_FROM(lower.val);
	run->last = upper.infinite ? GREATEST : ELEMENT_FROM(upper.val) - 1;
	return true;
}

/* Returns a run as a range. The greatest element has none after it, so the range of a run that ends
 * there has no upper bound. */
static RangeType *
range_of_run(const RUN *run)
{
	bool		is_last = run->last == GREATEST;
	RangeBound	lower = {.lower = true, .inclusive = true, .infinite = false};
	RangeBound	upper = {.lower = false, .inclusive = false, .infinite = is_last};

	lower.val = ELEMENT_DATUM(run->first);
	upper.val = is_last ? (Datum) 0 : ELEMENT_DATUM(run->last + 1);
	return make_range(range_type(), &lower, &upper, false);
}
