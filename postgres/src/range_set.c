/* The type range_set: sets of bigint. */
#include "set.h"

#define TYPE_NAME "range_set"
#define FN(name) range_set_##name
#define SET rsb_i64
#define RUN rsb_i64_run
#define CALL(name) rsb_i64_##name
#define ELEMENT int64
#define LEAST PG_INT64_MIN
#define GREATEST PG_INT64_MAX
#define ELEMENT_FROM(datum) DatumGetInt64(datum)
#define ELEMENT_DATUM(value) Int64GetDatum(value)
#define RANGE_OID INT8RANGEOID
#define MULTIRANGE_OID INT8MULTIRANGEOID

PG_MODULE_MAGIC;

/* The count of members, as a number of PostgreSQL. */
static inline Datum count_datum(rsb_u64_count count);
#define BYTES_OF_RUN 20
#define COUNT_DATUM(count) count_datum(count)

#include "templates.h"

static inline Datum
count_datum(rsb_u64_count count)
{
	return numeric_of(count.high, count.low);
}
