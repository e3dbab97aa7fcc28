/* Whether a set of uint64_t is empty, its first and last runs, and walks over its gaps. range_set.h
 * includes this. None of these calls allocates. */
#ifndef RANGE_SET_U64_WALK_H
#define RANGE_SET_U64_WALK_H

/* Returns whether the set has no member. */
RSB_INLINE bool rsb_u64_is_empty(const rsb_u64 *set) {
    return rsb_u64_run_count(set) == 0;
}

/* Stores in `run` the run with the least members, and returns true. If the set is empty, returns
   false, and `run` is unchanged. */
RSB_INLINE bool rsb_u64_first_run(const rsb_u64 *set, rsb_u64_run *run) {
    return rsb_u64_next_run(set, 0, run);
}

/* Stores in `run` the run with the greatest members, and returns true. If the set is empty, returns
   false, and `run` is unchanged. */
RSB_INLINE bool rsb_u64_last_run(const rsb_u64 *set, rsb_u64_run *run) {
    return rsb_u64_prev_run(set, UINT64_MAX, run);
}

/* Stores in `gap` the gap that contains `from`, or otherwise the first gap after it, and returns
   true. If there is none, returns false, and `gap` is unchanged. A gap extends to the runs beside
   it, or to 0 and UINT64_MAX if there are none. */
RSB_INLINE bool rsb_u64_next_gap(const rsb_u64 *set, uint64_t from, rsb_u64_run *gap) {
    rsb_u64_run block;
    if (rsb_u64_run_or_gap(set, from, &block)) {
        if (block.last == UINT64_MAX) {
            return false;
        }
        rsb_u64_run_or_gap(set, block.last + 1, &block);
    }
    *gap = block;
    return true;
}

/* Stores in `gap` the gap that contains `from`, or otherwise the last gap before it, and returns
   true. If there is none, returns false, and `gap` is unchanged. */
RSB_INLINE bool rsb_u64_prev_gap(const rsb_u64 *set, uint64_t from, rsb_u64_run *gap) {
    rsb_u64_run block;
    if (rsb_u64_run_or_gap(set, from, &block)) {
        if (block.first == 0) {
            return false;
        }
        rsb_u64_run_or_gap(set, block.first - 1, &block);
    }
    *gap = block;
    return true;
}

/* Stores in `gap` the first gap that starts after `value`, and returns true. If there is none,
   returns false, and `gap` is unchanged. This loop goes over all gaps, and ends for every set:

     for (bool more = rsb_u64_next_gap(&set, 0, &gap); more;
          more = rsb_u64_gap_after(&set, gap.last, &gap)) */
RSB_INLINE bool rsb_u64_gap_after(const rsb_u64 *set, uint64_t value, rsb_u64_run *gap) {
    rsb_u64_run run;
    if (!rsb_u64_next_run(set, value, &run) || run.last == UINT64_MAX) {
        return false;
    }
    rsb_u64_run_or_gap(set, run.last + 1, gap);
    return true;
}

/* Stores in `gap` the last gap that ends before `value`, and returns true. If there is none,
   returns false, and `gap` is unchanged. This loop goes over all gaps in descending order:

     for (bool more = rsb_u64_prev_gap(&set, UINT64_MAX, &gap); more;
          more = rsb_u64_gap_before(&set, gap.first, &gap)) */
RSB_INLINE bool rsb_u64_gap_before(const rsb_u64 *set, uint64_t value, rsb_u64_run *gap) {
    rsb_u64_run run;
    if (!rsb_u64_prev_run(set, value, &run) || run.first == 0) {
        return false;
    }
    rsb_u64_run_or_gap(set, run.first - 1, gap);
    return true;
}

#endif
