/* Written by tools/c/narrow from include/range_set/u64_same.h. */
/* The calls on several sets of uint32_t, whose handles may be the same. range_set.h includes this.
 *
 * The handles of an exported function are different sets. So each function here first compares the
 * addresses of its handles, and then calls an export on handles that differ. A macro gives it the
 * name of the export, and so C and C++ call this function instead. */
#ifndef RANGE_SET_U32_SAME_H
#define RANGE_SET_U32_SAME_H

/* Removes all members. Returns RSB_UNCHANGED if there are none. */
RSB_NODISCARD RSB_INLINE uint32_t rsb_private_u32_emptied(rsb_u32 *set) {
    if (rsb_u32_run_count(set) == 0) {
        return RSB_UNCHANGED;
    }
    rsb_u32_clear(set);
    return RSB_CHANGED;
}

/* What a call returns if it made the set that a call in place left. */
RSB_NODISCARD RSB_INLINE uint32_t rsb_private_u32_made(uint32_t status) {
    if (status == RSB_UNCHANGED) {
        return RSB_CHANGED;
    }
    return status;
}

/* Moves a set to `out`, unless the call that made it has failed. */
RSB_NODISCARD RSB_INLINE uint32_t rsb_private_u32_moved(uint32_t status, rsb_u32 *out, const rsb_u32 *made) {
    if (status == RSB_CHANGED) {
        rsb_u32_free(out);
        *out = *made;
    }
    return status;
}

/* ---- Changes in place. */

RSB_NODISCARD RSB_INLINE uint32_t rsb_checked_u32_union_with(rsb_u32 *set, const rsb_u32 *other) {
    if (set == other) {
        return RSB_UNCHANGED;
    }
    return rsb_u32_union_with(set, other);
}

RSB_NODISCARD RSB_INLINE uint32_t rsb_checked_u32_intersect_with(rsb_u32 *set, const rsb_u32 *other) {
    if (set == other) {
        return RSB_UNCHANGED;
    }
    return rsb_u32_intersect_with(set, other);
}

RSB_NODISCARD RSB_INLINE uint32_t rsb_checked_u32_subtract(rsb_u32 *set, const rsb_u32 *other) {
    if (set == other) {
        return rsb_private_u32_emptied(set);
    }
    return rsb_u32_subtract(set, other);
}

RSB_NODISCARD RSB_INLINE uint32_t rsb_checked_u32_xor_with(rsb_u32 *set, const rsb_u32 *other) {
    if (set == other) {
        return rsb_private_u32_emptied(set);
    }
    return rsb_u32_xor_with(set, other);
}

/* ---- New sets. */

RSB_NODISCARD RSB_INLINE uint32_t rsb_checked_u32_clone(rsb_u32 *out, const rsb_u32 *set) {
    if (out == set) {
        return RSB_CHANGED;
    }
    return rsb_u32_clone(out, set);
}

RSB_NODISCARD RSB_INLINE uint32_t rsb_checked_u32_complement(rsb_u32 *out, const rsb_u32 *set) {
    if (out == set) {
        rsb_u32 made = RSB_EMPTY;
        return rsb_private_u32_moved(rsb_u32_complement(&made, set), out, &made);
    }
    return rsb_u32_complement(out, set);
}

RSB_NODISCARD RSB_INLINE uint32_t rsb_checked_u32_union(
    rsb_u32 *out, const rsb_u32 *left, const rsb_u32 *right) {
    if (left == right) {
        return rsb_checked_u32_clone(out, left);
    }
    if (out == left) {
        return rsb_private_u32_made(rsb_u32_union_with(out, right));
    }
    if (out == right) {
        return rsb_private_u32_made(rsb_u32_union_with(out, left));
    }
    return rsb_u32_union(out, left, right);
}

RSB_NODISCARD RSB_INLINE uint32_t rsb_checked_u32_intersection(
    rsb_u32 *out, const rsb_u32 *left, const rsb_u32 *right) {
    if (left == right) {
        return rsb_checked_u32_clone(out, left);
    }
    if (out == left) {
        return rsb_private_u32_made(rsb_u32_intersect_with(out, right));
    }
    if (out == right) {
        return rsb_private_u32_made(rsb_u32_intersect_with(out, left));
    }
    return rsb_u32_intersection(out, left, right);
}

RSB_NODISCARD RSB_INLINE uint32_t rsb_checked_u32_difference(
    rsb_u32 *out, const rsb_u32 *left, const rsb_u32 *right) {
    if (left == right) {
        rsb_u32_free(out);
        return RSB_CHANGED;
    }
    if (out == left) {
        return rsb_private_u32_made(rsb_u32_subtract(out, right));
    }
    if (out == right) {
        rsb_u32 made = RSB_EMPTY;
        return rsb_private_u32_moved(rsb_u32_difference(&made, left, right), out, &made);
    }
    return rsb_u32_difference(out, left, right);
}

RSB_NODISCARD RSB_INLINE uint32_t rsb_checked_u32_symmetric_difference(
    rsb_u32 *out, const rsb_u32 *left, const rsb_u32 *right) {
    if (left == right) {
        rsb_u32_free(out);
        return RSB_CHANGED;
    }
    if (out == left) {
        return rsb_private_u32_made(rsb_u32_xor_with(out, right));
    }
    if (out == right) {
        return rsb_private_u32_made(rsb_u32_xor_with(out, left));
    }
    return rsb_u32_symmetric_difference(out, left, right);
}

/* ---- Comparisons. */

RSB_INLINE bool rsb_checked_u32_equal(const rsb_u32 *left, const rsb_u32 *right) {
    return left == right || rsb_u32_equal(left, right);
}

RSB_INLINE int32_t rsb_checked_u32_order(const rsb_u32 *left, const rsb_u32 *right) {
    return left == right ? 0 : rsb_u32_order(left, right);
}

RSB_INLINE bool rsb_checked_u32_is_subset(const rsb_u32 *left, const rsb_u32 *right) {
    return left == right || rsb_u32_is_subset(left, right);
}

RSB_INLINE bool rsb_checked_u32_is_disjoint(const rsb_u32 *left, const rsb_u32 *right) {
    return left == right ? rsb_u32_run_count(left) == 0 : rsb_u32_is_disjoint(left, right);
}

#define rsb_u32_union_with rsb_checked_u32_union_with
#define rsb_u32_intersect_with rsb_checked_u32_intersect_with
#define rsb_u32_subtract rsb_checked_u32_subtract
#define rsb_u32_xor_with rsb_checked_u32_xor_with
#define rsb_u32_clone rsb_checked_u32_clone
#define rsb_u32_complement rsb_checked_u32_complement
#define rsb_u32_union rsb_checked_u32_union
#define rsb_u32_intersection rsb_checked_u32_intersection
#define rsb_u32_difference rsb_checked_u32_difference
#define rsb_u32_symmetric_difference rsb_checked_u32_symmetric_difference
#define rsb_u32_equal rsb_checked_u32_equal
#define rsb_u32_order rsb_checked_u32_order
#define rsb_u32_is_subset rsb_checked_u32_is_subset
#define rsb_u32_is_disjoint rsb_checked_u32_is_disjoint

#endif
