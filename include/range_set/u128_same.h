/* Written by tools/c/narrow from include/range_set/u64_same.h. */
/* The calls on several sets of rsb_u128_value, whose handles may be the same. range_set.h includes this.
 *
 * The handles of an exported function are different sets. So each function here first compares the
 * addresses of its handles, and then calls an export on handles that differ. A macro gives it the
 * name of the export, and so C and C++ call this function instead. */
#ifndef RANGE_SET_U128_SAME_H
#define RANGE_SET_U128_SAME_H

/* Removes all members. Returns RSB_UNCHANGED if there are none. */
RSB_NODISCARD RSB_INLINE uint32_t rsb_private_u128_emptied(rsb_u128 *set) {
    if (rsb_u128_run_count(set) == 0) {
        return RSB_UNCHANGED;
    }
    rsb_u128_clear(set);
    return RSB_CHANGED;
}

/* What a call returns if it made the set that a call in place left. */
RSB_NODISCARD RSB_INLINE uint32_t rsb_private_u128_made(uint32_t status) {
    if (status == RSB_UNCHANGED) {
        return RSB_CHANGED;
    }
    return status;
}

/* Moves a set to `out`, unless the call that made it has failed. */
RSB_NODISCARD RSB_INLINE uint32_t rsb_private_u128_moved(uint32_t status, rsb_u128 *out, const rsb_u128 *made) {
    if (status == RSB_CHANGED) {
        rsb_u128_free(out);
        *out = *made;
    }
    return status;
}

/* ---- Changes in place. */

RSB_NODISCARD RSB_INLINE uint32_t rsb_checked_u128_union_with(rsb_u128 *set, const rsb_u128 *other) {
    if (set == other) {
        return RSB_UNCHANGED;
    }
    return rsb_u128_union_with(set, other);
}

RSB_NODISCARD RSB_INLINE uint32_t rsb_checked_u128_intersect_with(rsb_u128 *set, const rsb_u128 *other) {
    if (set == other) {
        return RSB_UNCHANGED;
    }
    return rsb_u128_intersect_with(set, other);
}

RSB_NODISCARD RSB_INLINE uint32_t rsb_checked_u128_subtract(rsb_u128 *set, const rsb_u128 *other) {
    if (set == other) {
        return rsb_private_u128_emptied(set);
    }
    return rsb_u128_subtract(set, other);
}

RSB_NODISCARD RSB_INLINE uint32_t rsb_checked_u128_xor_with(rsb_u128 *set, const rsb_u128 *other) {
    if (set == other) {
        return rsb_private_u128_emptied(set);
    }
    return rsb_u128_xor_with(set, other);
}

/* ---- New sets. */

RSB_NODISCARD RSB_INLINE uint32_t rsb_checked_u128_clone(rsb_u128 *out, const rsb_u128 *set) {
    if (out == set) {
        return RSB_CHANGED;
    }
    return rsb_u128_clone(out, set);
}

RSB_NODISCARD RSB_INLINE uint32_t rsb_checked_u128_complement(rsb_u128 *out, const rsb_u128 *set) {
    if (out == set) {
        rsb_u128 made = RSB_EMPTY;
        return rsb_private_u128_moved(rsb_u128_complement(&made, set), out, &made);
    }
    return rsb_u128_complement(out, set);
}

RSB_NODISCARD RSB_INLINE uint32_t rsb_checked_u128_union(
    rsb_u128 *out, const rsb_u128 *left, const rsb_u128 *right) {
    if (left == right) {
        return rsb_checked_u128_clone(out, left);
    }
    if (out == left) {
        return rsb_private_u128_made(rsb_u128_union_with(out, right));
    }
    if (out == right) {
        return rsb_private_u128_made(rsb_u128_union_with(out, left));
    }
    return rsb_u128_union(out, left, right);
}

RSB_NODISCARD RSB_INLINE uint32_t rsb_checked_u128_intersection(
    rsb_u128 *out, const rsb_u128 *left, const rsb_u128 *right) {
    if (left == right) {
        return rsb_checked_u128_clone(out, left);
    }
    if (out == left) {
        return rsb_private_u128_made(rsb_u128_intersect_with(out, right));
    }
    if (out == right) {
        return rsb_private_u128_made(rsb_u128_intersect_with(out, left));
    }
    return rsb_u128_intersection(out, left, right);
}

RSB_NODISCARD RSB_INLINE uint32_t rsb_checked_u128_difference(
    rsb_u128 *out, const rsb_u128 *left, const rsb_u128 *right) {
    if (left == right) {
        rsb_u128_free(out);
        return RSB_CHANGED;
    }
    if (out == left) {
        return rsb_private_u128_made(rsb_u128_subtract(out, right));
    }
    if (out == right) {
        rsb_u128 made = RSB_EMPTY;
        return rsb_private_u128_moved(rsb_u128_difference(&made, left, right), out, &made);
    }
    return rsb_u128_difference(out, left, right);
}

RSB_NODISCARD RSB_INLINE uint32_t rsb_checked_u128_symmetric_difference(
    rsb_u128 *out, const rsb_u128 *left, const rsb_u128 *right) {
    if (left == right) {
        rsb_u128_free(out);
        return RSB_CHANGED;
    }
    if (out == left) {
        return rsb_private_u128_made(rsb_u128_xor_with(out, right));
    }
    if (out == right) {
        return rsb_private_u128_made(rsb_u128_xor_with(out, left));
    }
    return rsb_u128_symmetric_difference(out, left, right);
}

/* ---- Comparisons. */

RSB_INLINE bool rsb_checked_u128_equal(const rsb_u128 *left, const rsb_u128 *right) {
    return left == right || rsb_u128_equal(left, right);
}

RSB_INLINE int32_t rsb_checked_u128_order(const rsb_u128 *left, const rsb_u128 *right) {
    return left == right ? 0 : rsb_u128_order(left, right);
}

RSB_INLINE bool rsb_checked_u128_is_subset(const rsb_u128 *left, const rsb_u128 *right) {
    return left == right || rsb_u128_is_subset(left, right);
}

RSB_INLINE bool rsb_checked_u128_is_disjoint(const rsb_u128 *left, const rsb_u128 *right) {
    return left == right ? rsb_u128_run_count(left) == 0 : rsb_u128_is_disjoint(left, right);
}

#define rsb_u128_union_with rsb_checked_u128_union_with
#define rsb_u128_intersect_with rsb_checked_u128_intersect_with
#define rsb_u128_subtract rsb_checked_u128_subtract
#define rsb_u128_xor_with rsb_checked_u128_xor_with
#define rsb_u128_clone rsb_checked_u128_clone
#define rsb_u128_complement rsb_checked_u128_complement
#define rsb_u128_union rsb_checked_u128_union
#define rsb_u128_intersection rsb_checked_u128_intersection
#define rsb_u128_difference rsb_checked_u128_difference
#define rsb_u128_symmetric_difference rsb_checked_u128_symmetric_difference
#define rsb_u128_equal rsb_checked_u128_equal
#define rsb_u128_order rsb_checked_u128_order
#define rsb_u128_is_subset rsb_checked_u128_is_subset
#define rsb_u128_is_disjoint rsb_checked_u128_is_disjoint

#endif
