/* Written by tools/c/narrow from include/range_set.h. */
/* Whether a set of rsb_i128_value is empty, its first and last runs, and walks over its gaps. i128.h
 * includes this. None of these calls allocates. */
#ifndef RANGE_SET_I128_WALK_H
#define RANGE_SET_I128_WALK_H

/* Returns whether the set has no member. */
RSB_INLINE bool rsb_i128_is_empty(const rsb_i128 *set) {
    return rsb_i128_run_count(set) == 0;
}

/* Stores in `run` the run with the least members, and returns true. If the set is empty, returns
   false, and `run` is unchanged. */
RSB_INLINE bool rsb_i128_first_run(const rsb_i128 *set, rsb_i128_run *run) {
    return rsb_i128_next_run(set, RSB_I128_MIN, run);
}

/* Stores in `run` the run with the greatest members, and returns true. If the set is empty, returns
   false, and `run` is unchanged. */
RSB_INLINE bool rsb_i128_last_run(const rsb_i128 *set, rsb_i128_run *run) {
    return rsb_i128_prev_run(set, RSB_I128_MAX, run);
}

/* Stores in `gap` the gap that contains `from`, or otherwise the first gap after it, and returns
   true. If there is none, returns false, and `gap` is unchanged. A gap extends to the runs beside
   it, or to RSB_I128_MIN and RSB_I128_MAX if there are none. */
RSB_INLINE bool rsb_i128_next_gap(const rsb_i128 *set, rsb_i128_value from, rsb_i128_run *gap) {
    rsb_i128_run block;
    if (rsb_i128_run_or_gap(set, from, &block)) {
        if (rsb_i128_compare(block.last, RSB_I128_MAX) == 0) {
            return false;
        }
        rsb_i128_run_or_gap(set, rsb_i128_next(block.last), &block);
    }
    *gap = block;
    return true;
}

/* Stores in `gap` the gap that contains `from`, or otherwise the last gap before it, and returns
   true. If there is none, returns false, and `gap` is unchanged. */
RSB_INLINE bool rsb_i128_prev_gap(const rsb_i128 *set, rsb_i128_value from, rsb_i128_run *gap) {
    rsb_i128_run block;
    if (rsb_i128_run_or_gap(set, from, &block)) {
        if (rsb_i128_compare(block.first, RSB_I128_MIN) == 0) {
            return false;
        }
        rsb_i128_run_or_gap(set, rsb_i128_prev(block.first), &block);
    }
    *gap = block;
    return true;
}

/* Stores in `gap` the first gap that starts after `value`, and returns true. If there is none,
   returns false, and `gap` is unchanged. This loop goes over all gaps, and ends for every set:

     for (bool more = rsb_i128_next_gap(&set, RSB_I128_MIN, &gap); more;
          more = rsb_i128_gap_after(&set, gap.last, &gap)) */
RSB_INLINE bool rsb_i128_gap_after(const rsb_i128 *set, rsb_i128_value value, rsb_i128_run *gap) {
    rsb_i128_run run;
    if (!rsb_i128_next_run(set, value, &run) || rsb_i128_compare(run.last, RSB_I128_MAX) == 0) {
        return false;
    }
    rsb_i128_run_or_gap(set, rsb_i128_next(run.last), gap);
    return true;
}

/* Stores in `gap` the last gap that ends before `value`, and returns true. If there is none,
   returns false, and `gap` is unchanged. This loop goes over all gaps in descending order:

     for (bool more = rsb_i128_prev_gap(&set, RSB_I128_MAX, &gap); more;
          more = rsb_i128_gap_before(&set, gap.first, &gap)) */
RSB_INLINE bool rsb_i128_gap_before(const rsb_i128 *set, rsb_i128_value value, rsb_i128_run *gap) {
    rsb_i128_run run;
    if (!rsb_i128_prev_run(set, value, &run) || rsb_i128_compare(run.first, RSB_I128_MIN) == 0) {
        return false;
    }
    rsb_i128_run_or_gap(set, rsb_i128_prev(run.first), gap);
    return true;
}

#endif
