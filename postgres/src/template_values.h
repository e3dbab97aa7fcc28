/* Values of the type, as bytes in a column and as sets of the library. */
#include "utils/builtins.h"
#include "utils/memutils.h"

/* The most bytes that a set takes beside its runs. */
#define BYTES_BESIDE_RUNS 16

/* Returns the number 2^64 * high + low as a numeric. high is 0 or 1. */
static Datum
numeric_of(uint64 high, uint64 low)
{
	char		digits[32];

	if (high == 1)
		strlcpy(digits, "18446744073709551616", sizeof(digits));
	else
		snprintf(digits, sizeof(digits), UINT64_FORMAT, low);
	return DirectFunctionCall3(numeric_in, CStringGetDatum(digits),
							   ObjectIdGetDatum(InvalidOid), Int32GetDatum(-1));
}

/* Reads the bytes of a set. If they are no set's bytes, raises the given error. */
static SET
set_from_bytes(const char *bytes, Size length, int error)
{
	SET			set = RSB_EMPTY;
	size_t		position = 0;
	uint32		reason = 0;
	uint32		status = CALL(from_bytes) (&set, (const unsigned char *) bytes, length,
										   &position, &reason);

	if (status == RSB_BAD_BYTES)
		ereport(ERROR,
				(errcode(error),
				 errmsg("invalid bytes for type %s", TYPE_NAME),
				 errdetail("At position %zu, %s.", position, range_set_fault(reason))));
	check_memory(status);
	return set;
}

/* Returns the set of a value. */
static SET
set_of(Datum value)
{
	bytea	   *bytes = PG_DETOAST_DATUM_PACKED(value);
	SET			set = set_from_bytes(VARDATA_ANY(bytes), VARSIZE_ANY_EXHDR(bytes),
									 ERRCODE_DATA_CORRUPTED);

	if ((Pointer) bytes != DatumGetPointer(value))
		pfree(bytes);
	return set;
}

/* Returns the bytes of a set as a value. */
static Datum
bytes_of(const SET *set)
{
	Size		room = Min(BYTES_BESIDE_RUNS + BYTES_OF_RUN * CALL(run_count) (set),
						   MaxAllocSize - VARHDRSZ);
	bytea	   *bytes = palloc(VARHDRSZ + room);
	size_t		length = 0;
	uint32		status = CALL(to_bytes) (set, (unsigned char *) VARDATA(bytes), room, &length);

	if (status == RSB_NO_ROOM)
		ereport(ERROR,
				(errcode(ERRCODE_PROGRAM_LIMIT_EXCEEDED),
				 errmsg("value of type %s is too large", TYPE_NAME),
				 errdetail("Its %zu runs take %zu bytes.", CALL(run_count) (set), length)));
	check_memory(status);
	SET_VARSIZE(bytes, VARHDRSZ + length);
	return PointerGetDatum(bytes);
}

/* The same, and frees the set. */
static Datum
datum_of(SET *set)
{
	Datum		value = bytes_of(set);

	CALL(free) (set);
	return value;
}

/* ---- Arguments. A query often asks the same set about many rows, so each place of a call keeps the
 * set that it read last. */

/* The least size at which a value is worth keeping. */
#define LEAST_KEPT 128

/* A set, and a copy of the value that it was read from, or null if there is none. */
typedef struct Kept
{
	struct varlena *value;
	SET			set;
} Kept;

/* Whether the set of a value is worth keeping. The bytes of a value that lies outside of its row name
 * the place where it is, and nothing else comes to that place during a query. */
static bool
is_kept(const struct varlena *value)
{
	return VARATT_IS_EXTERNAL(value)
		? VARATT_IS_EXTERNAL_ONDISK(value)
		: VARSIZE_ANY(value) >= LEAST_KEPT;
}

static bool
is_set_of(const Kept *kept, const struct varlena *value)
{
	return kept->value != NULL && VARSIZE_ANY(kept->value) == VARSIZE_ANY(value)
		&& memcmp(kept->value, value, VARSIZE_ANY(value)) == 0;
}

/* Keeps the set of a value in place of the one that was kept. */
static void
keep(Kept *kept, const struct varlena *value, MemoryContext context)
{
	MemoryContext before = MemoryContextSwitchTo(context);

	CALL(free) (&kept->set);
	if (kept->value != NULL)
		pfree(kept->value);
	kept->value = NULL;
	kept->set = set_of(PointerGetDatum(value));
	kept->value = memcpy(palloc(VARSIZE_ANY(value)), value, VARSIZE_ANY(value));
	MemoryContextSwitchTo(before);
}

/* Returns the set of an argument: the one that is kept, or one that is now put in room. */
static const SET *
argument(FunctionCallInfo fcinfo, int place, SET *room)
{
	FmgrInfo   *info = fcinfo->flinfo;
	const struct varlena *value = (struct varlena *) PG_GETARG_POINTER(place);
	Kept	   *kept;

	if (info == NULL || !is_kept(value))
	{
		*room = set_of(PointerGetDatum(value));
		return room;
	}
	if (info->fn_extra == NULL)
		info->fn_extra = MemoryContextAllocZero(info->fn_mcxt, 2 * sizeof(Kept));
	kept = (Kept *) info->fn_extra + place;
	if (!is_set_of(kept, value))
		keep(kept, value, info->fn_mcxt);
	return &kept->set;
}

/* The two sets of a call. */
typedef struct Pair
{
	SET			rooms[2];
	const SET  *left;
	const SET  *right;
} Pair;

static void
read_pair(FunctionCallInfo fcinfo, Pair *pair)
{
	memset(pair->rooms, 0, sizeof(pair->rooms));
	pair->left = argument(fcinfo, 0, &pair->rooms[0]);
	pair->right = argument(fcinfo, 1, &pair->rooms[1]);
}

static void
free_pair(Pair *pair)
{
	CALL(free) (&pair->rooms[0]);
	CALL(free) (&pair->rooms[1]);
}
