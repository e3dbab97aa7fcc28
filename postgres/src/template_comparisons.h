/* Comparisons. Equal sets have equal bytes, and different sets have different bytes. */
#include "common/hashfn.h"

static bool
are_equal(Datum one, Datum other)
{
	bytea	   *left = PG_DETOAST_DATUM_PACKED(one);
	bytea	   *right = PG_DETOAST_DATUM_PACKED(other);
	Size		length = VARSIZE_ANY_EXHDR(left);

	return length == VARSIZE_ANY_EXHDR(right)
		&& memcmp(VARDATA_ANY(left), VARDATA_ANY(right), length) == 0;
}

/* Returns -1, 0 or 1 as the ascending lists of members compare. */
static int
order_of(FunctionCallInfo fcinfo)
{
	Pair		pair;
	int			order;

	read_pair(fcinfo, &pair);
	order = CALL(order) (pair.left, pair.right);
	free_pair(&pair);
	return order;
}

SQL_FUNCTION(FN(eq))
{
	PG_RETURN_BOOL(are_equal(PG_GETARG_DATUM(0), PG_GETARG_DATUM(1)));
}

SQL_FUNCTION(FN(ne))
{
	PG_RETURN_BOOL(!are_equal(PG_GETARG_DATUM(0), PG_GETARG_DATUM(1)));
}

SQL_FUNCTION(FN(lt))
{
	PG_RETURN_BOOL(order_of(fcinfo) < 0);
}

SQL_FUNCTION(FN(le))
{
	PG_RETURN_BOOL(order_of(fcinfo) <= 0);
}

SQL_FUNCTION(FN(gt))
{
	PG_RETURN_BOOL(order_of(fcinfo) > 0);
}

SQL_FUNCTION(FN(ge))
{
	PG_RETURN_BOOL(order_of(fcinfo) >= 0);
}

SQL_FUNCTION(FN(cmp))
{
	PG_RETURN_INT32(order_of(fcinfo));
}

SQL_FUNCTION(FN(hash))
{
	bytea	   *bytes = PG_GETARG_BYTEA_PP(0);

	return hash_any((unsigned char *) VARDATA_ANY(bytes), VARSIZE_ANY_EXHDR(bytes));
}

SQL_FUNCTION(FN(hash_extended))
{
	bytea	   *bytes = PG_GETARG_BYTEA_PP(0);

	return hash_any_extended((unsigned char *) VARDATA_ANY(bytes), VARSIZE_ANY_EXHDR(bytes),
							 PG_GETARG_INT64(1));
}

SQL_FUNCTION(FN(contains))
{
	Pair		pair;
	bool		found;

	read_pair(fcinfo, &pair);
	found = CALL(is_subset) (pair.right, pair.left);
	free_pair(&pair);
	PG_RETURN_BOOL(found);
}

SQL_FUNCTION(FN(contained_by))
{
	Pair		pair;
	bool		found;

	read_pair(fcinfo, &pair);
	found = CALL(is_subset) (pair.left, pair.right);
	free_pair(&pair);
	PG_RETURN_BOOL(found);
}

SQL_FUNCTION(FN(overlaps))
{
	Pair		pair;
	bool		found;

	read_pair(fcinfo, &pair);
	found = !CALL(is_disjoint) (pair.left, pair.right);
	free_pair(&pair);
	PG_RETURN_BOOL(found);
}
