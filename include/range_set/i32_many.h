/* Written by tools/c/narrow from include/range_set.h. */
/* Calls on any number of sets of int32_t at once. i32.h includes this file.
 *
 * `sets` has `count` pointers to handles: `const rsb_i32 *sets[] = {&a, &b, &c};`. It may have the
 * same handle several times, and `out` too. If `count` is 0, `sets` may be null. Each call returns
 * RSB_CHANGED and frees what `out` held before, or returns RSB_NO_MEMORY and leaves `out`
 * unchanged. It first copies the sets into a list (docs/DECISIONS.md, many-by-lists). To use a
 * list for several calls, fill it yourself. */
#ifndef RANGE_SET_I32_MANY_H
#define RANGE_SET_I32_MANY_H

/* Adds copies of sets to a list until an allocation fails. */
RSB_NODISCARD RSB_INLINE uint32_t rsb_private_i32_listed(
    rsb_i32_sets *list, const rsb_i32 *const *sets, size_t count) {
    for (size_t i = 0; i < count; i++) {
        if (rsb_i32_sets_add(list, sets[i]) == RSB_NO_MEMORY) {
            return RSB_NO_MEMORY;
        }
    }
    return RSB_CHANGED;
}

/* Sets `out` to the values in at least one of the sets. If there are no sets, it is empty. */
RSB_NODISCARD RSB_INLINE uint32_t rsb_i32_union_of(rsb_i32 *out, const rsb_i32 *const *sets, size_t count) {
    rsb_i32_sets list = RSB_EMPTY;
    uint32_t status = rsb_private_i32_listed(&list, sets, count);
    if (status == RSB_CHANGED) {
        status = rsb_i32_sets_union(out, &list);
    }
    rsb_i32_sets_free(&list);
    return status;
}

/* Sets `out` to the values in all of the sets. If there are no sets, it has every int32_t. */
RSB_NODISCARD RSB_INLINE uint32_t rsb_i32_intersection_of(
    rsb_i32 *out, const rsb_i32 *const *sets, size_t count) {
    rsb_i32_sets list = RSB_EMPTY;
    uint32_t status = rsb_private_i32_listed(&list, sets, count);
    if (status == RSB_CHANGED) {
        status = rsb_i32_sets_intersection(out, &list);
    }
    rsb_i32_sets_free(&list);
    return status;
}

/* Sets `out` to the values in an odd number of the sets. If there are no sets, it is empty. */
RSB_NODISCARD RSB_INLINE uint32_t rsb_i32_symmetric_difference_of(
    rsb_i32 *out, const rsb_i32 *const *sets, size_t count) {
    rsb_i32_sets list = RSB_EMPTY;
    uint32_t status = rsb_private_i32_listed(&list, sets, count);
    if (status == RSB_CHANGED) {
        status = rsb_i32_sets_symmetric_difference(out, &list);
    }
    rsb_i32_sets_free(&list);
    return status;
}

/* Sets `out` to the values in at least k of the sets. If k is 0, it has every int32_t. */
RSB_NODISCARD RSB_INLINE uint32_t rsb_i32_at_least(
    rsb_i32 *out, const rsb_i32 *const *sets, size_t count, size_t k) {
    rsb_i32_sets list = RSB_EMPTY;
    uint32_t status = rsb_private_i32_listed(&list, sets, count);
    if (status == RSB_CHANGED) {
        status = rsb_i32_sets_at_least(out, &list, k);
    }
    rsb_i32_sets_free(&list);
    return status;
}

#endif
