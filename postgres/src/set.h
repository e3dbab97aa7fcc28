/* What the sources of both types share. */
#ifndef RANGE_SET_POSTGRES_H
#define RANGE_SET_POSTGRES_H

#include "postgres.h"

#include <range_set/i32.h>
#include <range_set/i64.h>

#include "fmgr.h"

/* Raises the error for a failed allocation. */
extern void range_set_out_of_memory(void) pg_attribute_noreturn();

/* Returns what is wrong with a byte, as a clause. */
extern const char *range_set_fault(uint32 reason);

/* Raises an error if a call of the library could not allocate. */
static inline void
check_memory(uint32 status)
{
	if (status == RSB_NO_MEMORY)
		range_set_out_of_memory();
}

/* Declares a function that SQL calls, and begins its definition. */
#define SQL_FUNCTION(name) \
	PG_FUNCTION_INFO_V1(name); \
	Datum \
	name(PG_FUNCTION_ARGS)

#endif
