/* What is wrong with bytes that are no set's. */
#include "set.h"

const char *
range_set_fault(uint32 reason)
{
	switch (reason)
	{
		case RSB_NOT_MAGIC:
			return "the byte is not that of the magic number";
		case RSB_OTHER_VERSION:
			return "the version of the format is not 1";
		case RSB_OTHER_WIDTH:
			return "the number of bits is not that of the type";
		case RSB_CUT_SHORT:
			return "the bytes end before the last run does";
		case RSB_NOT_SHORTEST:
			return "the byte ends a number that has a shorter form";
		case RSB_TOUCHING:
			return "a run touches the one before";
		case RSB_PAST_GREATEST:
			return "the runs go past the greatest value";
		default:
			return "a byte comes after the last run";
	}
}
