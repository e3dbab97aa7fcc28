/*
 * The functions of one type. range_set.c and range_set4.c include this after they have named the
 * type, its elements and the calls of the library.
 */
#include "template_values.h"
#include "template_ranges.h"

#include "template_text.h"
#include "template_algebra.h"
#include "template_comparisons.h"
#include "template_queries.h"
#include "template_lists.h"
#include "template_casts.h"
#include "template_aggregates.h"
