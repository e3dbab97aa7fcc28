/* Written by tools/c/narrow from include/range_set/u64_walk.h. */
/* Whether a set of rsb_u128_value is empty, its first and last runs, and walks over its gaps. range_set.h
 * includes this. None of these calls allocates. */
#ifndef RANGE_SET_U128_WALK_H
#define RANGE_SET_U128_WALK_H

/* Returns whether the set has no member. */
RSB_INLINE bool rsb_u128_is_empty(const rsb_u128 *set) {
    return rsb_u128_run_count(set) == 0;
}

/* Stores in `run` the run with the least members, and returns true. If the set is empty, returns
   false, and `run` is unchanged. */
RSB_INLINE bool rsb_u128_first_run(const rsb_u128 *set, rsb_u128_run *run) {
    return rsb_u128_next_run(set, RSB_U128(0, 0), run);
}

/* Stores in `run` the run with the greatest members, and returns true. If the set is empty, returns
   false, and `run` is unchanged. */
RSB_INLINE bool rsb_u128_last_run(const rsb_u128 *set, rsb_u128_run *run) {
    return rsb_u128_prev_run(set, RSB_U128_MAX, run);
}

/* Stores in `gap` the gap that contains `from`, or otherwise the first gap after it, and returns
   true. If there is none, returns false, and `gap` is unchanged. A gap extends to the runs beside
   it, or to RSB_U128(0, 0) and RSB_U128_MAX if there are none. */
RSB_INLINE bool rsb_u128_next_gap(const rsb_u128 *set, rsb_u128_value from, rsb_u128_run *gap) {
    rsb_u128_run block;
    if (rsb_u128_run_or_gap(set, from, &block)) {
        if (rsb_u128_compare(block.last, RSB_U128_MAX) == 0) {
            return false;
        }
        rsb_u128_run_or_gap(set, rsb_u128_next(block.last), &block);
    }
    *gap = block;
    return true;
}

/* Stores in `gap` the gap that contains `from`, or otherwise the last gap before it, and returns
   true. If there is none, returns false, and `gap` is unchanged. */
RSB_INLINE bool rsb_u128_prev_gap(const rsb_u128 *set, rsb_u128_value from, rsb_u128_run *gap) {
    rsb_u128_run block;
    if (rsb_u128_run_or_gap(set, from, &block)) {
        if (rsb_u128_compare(block.first, RSB_U128(0, 0)) == 0) {
            return false;
        }
        rsb_u128_run_or_gap(set, rsb_u128_prev(block.first), &block);
    }
    *gap = block;
    return true;
}

/* Stores in `gap` the first gap that starts after `value`, and returns true. If there is none,
   returns false, and `gap` is unchanged. This loop goes over all gaps, and ends for every set:

     for (bool more = rsb_u128_next_gap(&set, RSB_U128(0, 0), &gap); more;
          more = rsb_u128_gap_after(&set, gap.last, &gap)) */
RSB_INLINE bool rsb_u128_gap_after(const rsb_u128 *set, rsb_u128_value value, rsb_u128_run *gap) {
    rsb_u128_run run;
    if (!rsb_u128_next_run(set, value, &run) || rsb_u128_compare(run.last, RSB_U128_MAX) == 0) {
        return false;
    }
    rsb_u128_run_or_gap(set, rsb_u128_next(run.last), gap);
    return true;
}

/* Stores in `gap` the last gap that ends before `value`, and returns true. If there is none,
   returns false, and `gap` is unchanged. This loop goes over all gaps in descending order:

     for (bool more = rsb_u128_prev_gap(&set, RSB_U128_MAX, &gap); more;
          more = rsb_u128_gap_before(&set, gap.first, &gap)) */
RSB_INLINE bool rsb_u128_gap_before(const rsb_u128 *set, rsb_u128_value value, rsb_u128_run *gap) {
    rsb_u128_run run;
    if (!rsb_u128_prev_run(set, value, &run) || rsb_u128_compare(run.first, RSB_U128(0, 0)) == 0) {
        return false;
    }
    rsb_u128_run_or_gap(set, rsb_u128_prev(run.first), gap);
    return true;
}

#endif
