/* Written by tools/c/narrow from include/range_set.h. */
/* Whether a set of int32_t is empty, its first and last runs, and walks over its gaps. i32.h
 * includes this. None of these calls allocates. */
#ifndef RANGE_SET_I32_WALK_H
#define RANGE_SET_I32_WALK_H

/* Returns whether the set has no member. */
RSB_INLINE bool rsb_i32_is_empty(const rsb_i32 *set) {
    return rsb_i32_run_count(set) == 0;
}

/* Stores in `run` the run with the least members, and returns true. If the set is empty, returns
   false, and `run` is unchanged. */
RSB_INLINE bool rsb_i32_first_run(const rsb_i32 *set, rsb_i32_run *run) {
    return rsb_i32_next_run(set, INT32_MIN, run);
}

/* Stores in `run` the run with the greatest members, and returns true. If the set is empty, returns
   false, and `run` is unchanged. */
RSB_INLINE bool rsb_i32_last_run(const rsb_i32 *set, rsb_i32_run *run) {
    return rsb_i32_prev_run(set, INT32_MAX, run);
}

/* Stores in `gap` the gap that contains `from`, or otherwise the first gap after it, and returns
   true. If there is none, returns false, and `gap` is unchanged. A gap extends to the runs beside
   it, or to INT32_MIN and INT32_MAX if there are none. */
RSB_INLINE bool rsb_i32_next_gap(const rsb_i32 *set, int32_t from, rsb_i32_run *gap) {
    rsb_i32_run block;
    if (rsb_i32_run_or_gap(set, from, &block)) {
        if (block.last == INT32_MAX) {
            return false;
        }
        rsb_i32_run_or_gap(set, block.last + 1, &block);
    }
    *gap = block;
    return true;
}

/* Stores in `gap` the gap that contains `from`, or otherwise the last gap before it, and returns
   true. If there is none, returns false, and `gap` is unchanged. */
RSB_INLINE bool rsb_i32_prev_gap(const rsb_i32 *set, int32_t from, rsb_i32_run *gap) {
    rsb_i32_run block;
    if (rsb_i32_run_or_gap(set, from, &block)) {
        if (block.first == INT32_MIN) {
            return false;
        }
        rsb_i32_run_or_gap(set, block.first - 1, &block);
    }
    *gap = block;
    return true;
}

/* Stores in `gap` the first gap that starts after `value`, and returns true. If there is none,
   returns false, and `gap` is unchanged. This loop goes over all gaps, and ends for every set:

     for (bool more = rsb_i32_next_gap(&set, INT32_MIN, &gap); more;
          more = rsb_i32_gap_after(&set, gap.last, &gap)) */
RSB_INLINE bool rsb_i32_gap_after(const rsb_i32 *set, int32_t value, rsb_i32_run *gap) {
    rsb_i32_run run;
    if (!rsb_i32_next_run(set, value, &run) || run.last == INT32_MAX) {
        return false;
    }
    rsb_i32_run_or_gap(set, run.last + 1, gap);
    return true;
}

/* Stores in `gap` the last gap that ends before `value`, and returns true. If there is none,
   returns false, and `gap` is unchanged. This loop goes over all gaps in descending order:

     for (bool more = rsb_i32_prev_gap(&set, INT32_MAX, &gap); more;
          more = rsb_i32_gap_before(&set, gap.first, &gap)) */
RSB_INLINE bool rsb_i32_gap_before(const rsb_i32 *set, int32_t value, rsb_i32_run *gap) {
    rsb_i32_run run;
    if (!rsb_i32_prev_run(set, value, &run) || run.first == INT32_MIN) {
        return false;
    }
    rsb_i32_run_or_gap(set, run.first - 1, gap);
    return true;
}

#endif
