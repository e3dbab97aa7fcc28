/* Written by tools/c/narrow from include/range_set.h. */
/* Whether a set of int64_t is empty, its first and last runs, and walks over its gaps. i64.h
 * includes this. None of these calls allocates. */
#ifndef RANGE_SET_I64_WALK_H
#define RANGE_SET_I64_WALK_H

/* Returns whether the set has no member. */
RSB_INLINE bool rsb_i64_is_empty(const rsb_i64 *set) {
    return rsb_i64_run_count(set) == 0;
}

/* Stores in `run` the run with the least members, and returns true. If the set is empty, returns
   false, and `run` is unchanged. */
RSB_INLINE bool rsb_i64_first_run(const rsb_i64 *set, rsb_i64_run *run) {
    return rsb_i64_next_run(set, INT64_MIN, run);
}

/* Stores in `run` the run with the greatest members, and returns true. If the set is empty, returns
   false, and `run` is unchanged. */
RSB_INLINE bool rsb_i64_last_run(const rsb_i64 *set, rsb_i64_run *run) {
    return rsb_i64_prev_run(set, INT64_MAX, run);
}

/* Stores in `gap` the gap that contains `from`, or otherwise the first gap after it, and returns
   true. If there is none, returns false, and `gap` is unchanged. A gap extends to the runs beside
   it, or to INT64_MIN and INT64_MAX if there are none. */
RSB_INLINE bool rsb_i64_next_gap(const rsb_i64 *set, int64_t from, rsb_i64_run *gap) {
    rsb_i64_run block;
    if (rsb_i64_run_or_gap(set, from, &block)) {
        if (block.last == INT64_MAX) {
            return false;
        }
        rsb_i64_run_or_gap(set, block.last + 1, &block);
    }
    *gap = block;
    return true;
}

/* Stores in `gap` the gap that contains `from`, or otherwise the last gap before it, and returns
   true. If there is none, returns false, and `gap` is unchanged. */
RSB_INLINE bool rsb_i64_prev_gap(const rsb_i64 *set, int64_t from, rsb_i64_run *gap) {
    rsb_i64_run block;
    if (rsb_i64_run_or_gap(set, from, &block)) {
        if (block.first == INT64_MIN) {
            return false;
        }
        rsb_i64_run_or_gap(set, block.first - 1, &block);
    }
    *gap = block;
    return true;
}

/* Stores in `gap` the first gap that starts after `value`, and returns true. If there is none,
   returns false, and `gap` is unchanged. This loop goes over all gaps, and ends for every set:

     for (bool more = rsb_i64_next_gap(&set, INT64_MIN, &gap); more;
          more = rsb_i64_gap_after(&set, gap.last, &gap)) */
RSB_INLINE bool rsb_i64_gap_after(const rsb_i64 *set, int64_t value, rsb_i64_run *gap) {
    rsb_i64_run run;
    if (!rsb_i64_next_run(set, value, &run) || run.last == INT64_MAX) {
        return false;
    }
    rsb_i64_run_or_gap(set, run.last + 1, gap);
    return true;
}

/* Stores in `gap` the last gap that ends before `value`, and returns true. If there is none,
   returns false, and `gap` is unchanged. This loop goes over all gaps in descending order:

     for (bool more = rsb_i64_prev_gap(&set, INT64_MAX, &gap); more;
          more = rsb_i64_gap_before(&set, gap.first, &gap)) */
RSB_INLINE bool rsb_i64_gap_before(const rsb_i64 *set, int64_t value, rsb_i64_run *gap) {
    rsb_i64_run run;
    if (!rsb_i64_prev_run(set, value, &run) || run.first == INT64_MIN) {
        return false;
    }
    rsb_i64_run_or_gap(set, run.first - 1, gap);
    return true;
}

#endif
