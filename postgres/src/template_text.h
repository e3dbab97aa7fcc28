/* Text and bytes in and out. */
#include "libpq/pqformat.h"

SQL_FUNCTION(FN(in))
{
	char	   *text = PG_GETARG_CSTRING(0);
	SET			set = RSB_EMPTY;
	uint32		status = CALL(from_text) (&set, text, strlen(text));

	if (status == RSB_BAD_TEXT)
		ereport(ERROR,
				(errcode(ERRCODE_INVALID_TEXT_REPRESENTATION),
				 errmsg("invalid input syntax for type %s: \"%s\"", TYPE_NAME, text),
				 errhint("Write ranges such as \"1..=5, 10, 20..=30\".")));
	check_memory(status);
	PG_RETURN_DATUM(datum_of(&set));
}

SQL_FUNCTION(FN(out))
{
	SET			set = set_of(PG_GETARG_DATUM(0));
	size_t		length = 0;
	char	   *text;

	check_memory(CALL(to_short_text) (&set, NULL, 0, &length));
	text = palloc(length + 1);
	check_memory(CALL(to_short_text) (&set, text, length, &length));
	text[length] = '\0';
	CALL(free) (&set);
	PG_RETURN_CSTRING(text);
}

SQL_FUNCTION(FN(recv))
{
	StringInfo	buffer = (StringInfo) PG_GETARG_POINTER(0);
	int			length = buffer->len - buffer->cursor;
	SET			set = set_from_bytes(pq_getmsgbytes(buffer, length), length,
									 ERRCODE_INVALID_BINARY_REPRESENTATION);

	PG_RETURN_DATUM(datum_of(&set));
}

SQL_FUNCTION(FN(send))
{
	PG_RETURN_BYTEA_P(DatumGetByteaPCopy(PG_GETARG_DATUM(0)));
}
