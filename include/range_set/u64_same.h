/* The calls on several sets of uint64_t, whose handles may be the same. range_set.h includes this.
 *
 * The handles of an exported function are different sets. So each function here first compares the
 * addresses of its handles, and then calls an export on handles that differ. A macro gives it the
 * name of the export, and so C and C++ call this function instead. */
#ifndef RANGE_SET_U64_SAME_H
#define RANGE_SET_U64_SAME_H

/* Removes all members. Returns RSB_UNCHANGED if there are none. */
RSB_NODISCARD RSB_INLINE uint32_t rsb_private_u64_emptied(rsb_u64 *set) {
    if (rsb_u64_run_count(set) == 0) {
        return RSB_UNCHANGED;
    }
    rsb_u64_clear(set);
    return RSB_CHANGED;
}

/* What a call returns if it made the set that a call in place left. */
RSB_NODISCARD RSB_INLINE uint32_t rsb_private_u64_made(uint32_t status) {
    if (status == RSB_UNCHANGED) {
        return RSB_CHANGED;
    }
    return status;
}

/* Moves a set to `out`, unless the call that made it has failed. */
RSB_NODISCARD RSB_INLINE uint32_t rsb_private_u64_moved(uint32_t status, rsb_u64 *out, const rsb_u64 *made) {
    if (status == RSB_CHANGED) {
        rsb_u64_free(out);
        *out = *made;
    }
    return status;
}

/* ---- Changes in place. */

RSB_NODISCARD RSB_INLINE uint32_t rsb_checked_u64_union_with(rsb_u64 *set, const rsb_u64 *other) {
    if (set == other) {
        return RSB_UNCHANGED;
    }
    return rsb_u64_union_with(set, other);
}

RSB_NODISCARD RSB_INLINE uint32_t rsb_checked_u64_intersect_with(rsb_u64 *set, const rsb_u64 *other) {
    if (set == other) {
        return RSB_UNCHANGED;
    }
    return rsb_u64_intersect_with(set, other);
}

RSB_NODISCARD RSB_INLINE uint32_t rsb_checked_u64_subtract(rsb_u64 *set, const rsb_u64 *other) {
    if (set == other) {
        return rsb_private_u64_emptied(set);
    }
    return rsb_u64_subtract(set, other);
}

RSB_NODISCARD RSB_INLINE uint32_t rsb_checked_u64_xor_with(rsb_u64 *set, const rsb_u64 *other) {
    if (set == other) {
        return rsb_private_u64_emptied(set);
    }
    return rsb_u64_xor_with(set, other);
}

/* ---- New sets. */

RSB_NODISCARD RSB_INLINE uint32_t rsb_checked_u64_clone(rsb_u64 *out, const rsb_u64 *set) {
    if (out == set) {
        return RSB_CHANGED;
    }
    return rsb_u64_clone(out, set);
}

RSB_NODISCARD RSB_INLINE uint32_t rsb_checked_u64_complement(rsb_u64 *out, const rsb_u64 *set) {
    if (out == set) {
        rsb_u64 made = RSB_EMPTY;
        return rsb_private_u64_moved(rsb_u64_complement(&made, set), out, &made);
    }
    return rsb_u64_complement(out, set);
}

RSB_NODISCARD RSB_INLINE uint32_t rsb_checked_u64_union(
    rsb_u64 *out, const rsb_u64 *left, const rsb_u64 *right) {
    if (left == right) {
        return rsb_checked_u64_clone(out, left);
    }
    if (out == left) {
        return rsb_private_u64_made(rsb_u64_union_with(out, right));
    }
    if (out == right) {
        return rsb_private_u64_made(rsb_u64_union_with(out, left));
    }
    return rsb_u64_union(out, left, right);
}

RSB_NODISCARD RSB_INLINE uint32_t rsb_checked_u64_intersection(
    rsb_u64 *out, const rsb_u64 *left, const rsb_u64 *right) {
    if (left == right) {
        return rsb_checked_u64_clone(out, left);
    }
    if (out == left) {
        return rsb_private_u64_made(rsb_u64_intersect_with(out, right));
    }
    if (out == right) {
        return rsb_private_u64_made(rsb_u64_intersect_with(out, left));
    }
    return rsb_u64_intersection(out, left, right);
}

RSB_NODISCARD RSB_INLINE uint32_t rsb_checked_u64_difference(
    rsb_u64 *out, const rsb_u64 *left, const rsb_u64 *right) {
    if (left == right) {
        rsb_u64_free(out);
        return RSB_CHANGED;
    }
    if (out == left) {
        return rsb_private_u64_made(rsb_u64_subtract(out, right));
    }
    if (out == right) {
        rsb_u64 made = RSB_EMPTY;
        return rsb_private_u64_moved(rsb_u64_difference(&made, left, right), out, &made);
    }
    return rsb_u64_difference(out, left, right);
}

RSB_NODISCARD RSB_INLINE uint32_t rsb_checked_u64_symmetric_difference(
    rsb_u64 *out, const rsb_u64 *left, const rsb_u64 *right) {
    if (left == right) {
        rsb_u64_free(out);
        return RSB_CHANGED;
    }
    if (out == left) {
        return rsb_private_u64_made(rsb_u64_xor_with(out, right));
    }
    if (out == right) {
        return rsb_private_u64_made(rsb_u64_xor_with(out, left));
    }
    return rsb_u64_symmetric_difference(out, left, right);
}

/* ---- Comparisons. */

RSB_INLINE bool rsb_checked_u64_equal(const rsb_u64 *left, const rsb_u64 *right) {
    return left == right || rsb_u64_equal(left, right);
}

RSB_INLINE int32_t rsb_checked_u64_order(const rsb_u64 *left, const rsb_u64 *right) {
    return left == right ? 0 : rsb_u64_order(left, right);
}

RSB_INLINE bool rsb_checked_u64_is_subset(const rsb_u64 *left, const rsb_u64 *right) {
    return left == right || rsb_u64_is_subset(left, right);
}

RSB_INLINE bool rsb_checked_u64_is_disjoint(const rsb_u64 *left, const rsb_u64 *right) {
    return left == right ? rsb_u64_run_count(left) == 0 : rsb_u64_is_disjoint(left, right);
}

#define rsb_u64_union_with rsb_checked_u64_union_with
#define rsb_u64_intersect_with rsb_checked_u64_intersect_with
#define rsb_u64_subtract rsb_checked_u64_subtract
#define rsb_u64_xor_with rsb_checked_u64_xor_with
#define rsb_u64_clone rsb_checked_u64_clone
#define rsb_u64_complement rsb_checked_u64_complement
#define rsb_u64_union rsb_checked_u64_union
#define rsb_u64_intersection rsb_checked_u64_intersection
#define rsb_u64_difference rsb_checked_u64_difference
#define rsb_u64_symmetric_difference rsb_checked_u64_symmetric_difference
#define rsb_u64_equal rsb_checked_u64_equal
#define rsb_u64_order rsb_checked_u64_order
#define rsb_u64_is_subset rsb_checked_u64_is_subset
#define rsb_u64_is_disjoint rsb_checked_u64_is_disjoint

#endif
