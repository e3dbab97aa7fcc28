/* The type range_set4: sets of integer. */
#include "set.h"

#define TYPE_NAME "range_set4"
#define FN(name) range_set4_##name
#define SET rsb_i32
#define RUN rsb_i32_run
#define CALL(name) rsb_i32_##name
#define ELEMENT int32
#define LEAST PG_INT32_MIN
#define GREATEST PG_INT32_MAX
#define ELEMENT_FROM(datum) DatumGetInt32(datum)
#define ELEMENT_DATUM(value) Int32GetDatum(value)
#define RANGE_OID INT4RANGEOID
#define MULTIRANGE_OID INT4MULTIRANGEOID
#define BYTES_OF_RUN 10
#define COUNT_DATUM(count) numeric_of(0, count)

#include "templates.h"
