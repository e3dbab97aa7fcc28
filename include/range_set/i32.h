/* Written by tools/c/narrow from include/range_set.h. */
/* Sets of int32_t: the calls of range_set.h with i32 in place of u32. They are only
 * tested, and call those: a value is turned into one of uint32_t in the same order
 * (docs/DECISIONS.md, signed-by-order). What range_set.h says about a call holds here too, but the
 * least value is INT32_MIN and the greatest one INT32_MAX. A number of values (`n`, `len`,
 * and what `len` and `rank` return) has no sign. rsb_i32_to_text does not allocate. */
#ifndef RANGE_SET_I32_H
#define RANGE_SET_I32_H

#include "../range_set.h"

#ifdef __cplusplus
extern "C" {
#endif

#include "signed.h"
#include "i32_value.h"

RSB_PRIVATE_HANDLE(rsb_i32, rsb_u32);
RSB_PRIVATE_HANDLE(rsb_i32_sets, rsb_u32_sets);

typedef struct rsb_i32_run {
    int32_t first;
    int32_t last;
} rsb_i32_run;

RSB_INLINE rsb_i32_run rsb_private_i32_run_out(rsb_u32_run run) {
    rsb_i32_run made = {rsb_private_i32_out(run.first), rsb_private_i32_out(run.last)};
    return made;
}

RSB_NODISCARD RSB_INLINE uint32_t rsb_i32_insert_range(rsb_i32 *set, int32_t first, int32_t last) {
    return rsb_u32_insert_range(&set->rsb_private, rsb_private_i32_in(first), rsb_private_i32_in(last));
}

RSB_NODISCARD RSB_INLINE uint32_t rsb_i32_insert(rsb_i32 *set, int32_t value) {
    return rsb_u32_insert(&set->rsb_private, rsb_private_i32_in(value));
}

RSB_NODISCARD RSB_INLINE uint32_t rsb_i32_remove(rsb_i32 *set, int32_t value) {
    return rsb_u32_remove(&set->rsb_private, rsb_private_i32_in(value));
}

RSB_NODISCARD RSB_INLINE uint32_t rsb_i32_remove_range(rsb_i32 *set, int32_t first, int32_t last) {
    return rsb_u32_remove_range(&set->rsb_private, rsb_private_i32_in(first), rsb_private_i32_in(last));
}

RSB_NODISCARD RSB_INLINE uint32_t rsb_i32_union_with(rsb_i32 *set, const rsb_i32 *other) {
    return rsb_u32_union_with(&set->rsb_private, &other->rsb_private);
}

RSB_NODISCARD RSB_INLINE uint32_t rsb_i32_intersect_with(rsb_i32 *set, const rsb_i32 *other) {
    return rsb_u32_intersect_with(&set->rsb_private, &other->rsb_private);
}

RSB_NODISCARD RSB_INLINE uint32_t rsb_i32_subtract(rsb_i32 *set, const rsb_i32 *other) {
    return rsb_u32_subtract(&set->rsb_private, &other->rsb_private);
}

RSB_NODISCARD RSB_INLINE uint32_t rsb_i32_xor_with(rsb_i32 *set, const rsb_i32 *other) {
    return rsb_u32_xor_with(&set->rsb_private, &other->rsb_private);
}

RSB_INLINE void rsb_i32_clear(rsb_i32 *set) {
    rsb_u32_clear(&set->rsb_private);
}

RSB_INLINE void rsb_i32_free(rsb_i32 *set) {
    rsb_u32_free(&set->rsb_private);
}

RSB_INLINE bool rsb_i32_contains(const rsb_i32 *set, int32_t value) {
    return rsb_u32_contains(&set->rsb_private, rsb_private_i32_in(value));
}

RSB_INLINE bool rsb_i32_contains_range(const rsb_i32 *set, int32_t first, int32_t last) {
    return rsb_u32_contains_range(&set->rsb_private, rsb_private_i32_in(first), rsb_private_i32_in(last));
}

RSB_INLINE bool rsb_i32_is_disjoint_range(const rsb_i32 *set, int32_t first, int32_t last) {
    return rsb_u32_is_disjoint_range(&set->rsb_private, rsb_private_i32_in(first), rsb_private_i32_in(last));
}

RSB_INLINE uint64_t rsb_i32_len(const rsb_i32 *set) {
    return rsb_u32_len(&set->rsb_private);
}

RSB_INLINE uint64_t rsb_i32_len_in(const rsb_i32 *set, int32_t first, int32_t last) {
    return rsb_u32_len_in(&set->rsb_private, rsb_private_i32_in(first), rsb_private_i32_in(last));
}

RSB_INLINE uint64_t rsb_i32_rank(const rsb_i32 *set, int32_t value) {
    return rsb_u32_rank(&set->rsb_private, rsb_private_i32_in(value));
}

RSB_INLINE bool rsb_i32_nth(const rsb_i32 *set, uint64_t n, int32_t *value) {
    uint32_t found;
    bool is = rsb_u32_nth(&set->rsb_private, n, &found);
    if (is) {
        *value = rsb_private_i32_out(found);
    }
    return is;
}

RSB_INLINE size_t rsb_i32_run_count(const rsb_i32 *set) {
    return rsb_u32_run_count(&set->rsb_private);
}

RSB_INLINE bool rsb_i32_first(const rsb_i32 *set, int32_t *value) {
    uint32_t found;
    bool is = rsb_u32_first(&set->rsb_private, &found);
    if (is) {
        *value = rsb_private_i32_out(found);
    }
    return is;
}

RSB_INLINE bool rsb_i32_last(const rsb_i32 *set, int32_t *value) {
    uint32_t found;
    bool is = rsb_u32_last(&set->rsb_private, &found);
    if (is) {
        *value = rsb_private_i32_out(found);
    }
    return is;
}

RSB_INLINE bool rsb_i32_run_or_gap(const rsb_i32 *set, int32_t value, rsb_i32_run *block) {
    rsb_u32_run found;
    bool is = rsb_u32_run_or_gap(&set->rsb_private, rsb_private_i32_in(value), &found);
    *block = rsb_private_i32_run_out(found);
    return is;
}

RSB_INLINE bool rsb_i32_next_run(const rsb_i32 *set, int32_t from, rsb_i32_run *run) {
    rsb_u32_run found;
    bool is = rsb_u32_next_run(&set->rsb_private, rsb_private_i32_in(from), &found);
    if (is) {
        *run = rsb_private_i32_run_out(found);
    }
    return is;
}

RSB_INLINE bool rsb_i32_prev_run(const rsb_i32 *set, int32_t from, rsb_i32_run *run) {
    rsb_u32_run found;
    bool is = rsb_u32_prev_run(&set->rsb_private, rsb_private_i32_in(from), &found);
    if (is) {
        *run = rsb_private_i32_run_out(found);
    }
    return is;
}

RSB_INLINE bool rsb_i32_run_after(const rsb_i32 *set, int32_t value, rsb_i32_run *run) {
    rsb_u32_run found;
    bool is = rsb_u32_run_after(&set->rsb_private, rsb_private_i32_in(value), &found);
    if (is) {
        *run = rsb_private_i32_run_out(found);
    }
    return is;
}

RSB_INLINE bool rsb_i32_run_before(const rsb_i32 *set, int32_t value, rsb_i32_run *run) {
    rsb_u32_run found;
    bool is = rsb_u32_run_before(&set->rsb_private, rsb_private_i32_in(value), &found);
    if (is) {
        *run = rsb_private_i32_run_out(found);
    }
    return is;
}

RSB_INLINE bool rsb_i32_first_gap(const rsb_i32 *set, int32_t from, uint64_t len, rsb_i32_run *gap) {
    rsb_u32_run found;
    bool is = rsb_u32_first_gap(&set->rsb_private, rsb_private_i32_in(from), len, &found);
    if (is) {
        *gap = rsb_private_i32_run_out(found);
    }
    return is;
}

RSB_INLINE bool rsb_i32_first_run_of(const rsb_i32 *set, int32_t from, uint64_t len, rsb_i32_run *run) {
    rsb_u32_run found;
    bool is = rsb_u32_first_run_of(&set->rsb_private, rsb_private_i32_in(from), len, &found);
    if (is) {
        *run = rsb_private_i32_run_out(found);
    }
    return is;
}

RSB_NODISCARD RSB_INLINE uint32_t rsb_i32_union(rsb_i32 *out, const rsb_i32 *left, const rsb_i32 *right) {
    return rsb_u32_union(&out->rsb_private, &left->rsb_private, &right->rsb_private);
}

RSB_NODISCARD RSB_INLINE uint32_t rsb_i32_intersection(rsb_i32 *out, const rsb_i32 *left, const rsb_i32 *right) {
    return rsb_u32_intersection(&out->rsb_private, &left->rsb_private, &right->rsb_private);
}

RSB_NODISCARD RSB_INLINE uint32_t rsb_i32_difference(rsb_i32 *out, const rsb_i32 *left, const rsb_i32 *right) {
    return rsb_u32_difference(&out->rsb_private, &left->rsb_private, &right->rsb_private);
}

RSB_NODISCARD RSB_INLINE uint32_t rsb_i32_symmetric_difference(rsb_i32 *out, const rsb_i32 *left, const rsb_i32 *right) {
    return rsb_u32_symmetric_difference(&out->rsb_private, &left->rsb_private, &right->rsb_private);
}

RSB_NODISCARD RSB_INLINE uint32_t rsb_i32_complement(rsb_i32 *out, const rsb_i32 *set) {
    return rsb_u32_complement(&out->rsb_private, &set->rsb_private);
}

RSB_NODISCARD RSB_INLINE uint32_t rsb_i32_clone(rsb_i32 *out, const rsb_i32 *set) {
    return rsb_u32_clone(&out->rsb_private, &set->rsb_private);
}

RSB_INLINE bool rsb_i32_equal(const rsb_i32 *left, const rsb_i32 *right) {
    return rsb_u32_equal(&left->rsb_private, &right->rsb_private);
}

RSB_INLINE int32_t rsb_i32_order(const rsb_i32 *left, const rsb_i32 *right) {
    return rsb_u32_order(&left->rsb_private, &right->rsb_private);
}

RSB_INLINE bool rsb_i32_is_subset(const rsb_i32 *left, const rsb_i32 *right) {
    return rsb_u32_is_subset(&left->rsb_private, &right->rsb_private);
}

RSB_INLINE bool rsb_i32_is_disjoint(const rsb_i32 *left, const rsb_i32 *right) {
    return rsb_u32_is_disjoint(&left->rsb_private, &right->rsb_private);
}

RSB_NODISCARD RSB_INLINE uint32_t rsb_i32_sets_add(rsb_i32_sets *list, const rsb_i32 *set) {
    return rsb_u32_sets_add(&list->rsb_private, &set->rsb_private);
}

RSB_NODISCARD RSB_INLINE uint32_t rsb_i32_sets_union(rsb_i32 *out, const rsb_i32_sets *list) {
    return rsb_u32_sets_union(&out->rsb_private, &list->rsb_private);
}

RSB_NODISCARD RSB_INLINE uint32_t rsb_i32_sets_intersection(rsb_i32 *out, const rsb_i32_sets *list) {
    return rsb_u32_sets_intersection(&out->rsb_private, &list->rsb_private);
}

RSB_NODISCARD RSB_INLINE uint32_t rsb_i32_sets_symmetric_difference(rsb_i32 *out, const rsb_i32_sets *list) {
    return rsb_u32_sets_symmetric_difference(&out->rsb_private, &list->rsb_private);
}

RSB_NODISCARD RSB_INLINE uint32_t rsb_i32_sets_at_least(rsb_i32 *out, const rsb_i32_sets *list, size_t k) {
    return rsb_u32_sets_at_least(&out->rsb_private, &list->rsb_private, k);
}

RSB_INLINE void rsb_i32_sets_free(rsb_i32_sets *list) {
    rsb_u32_sets_free(&list->rsb_private);
}

RSB_NODISCARD RSB_INLINE uint32_t rsb_i32_to_bytes(const rsb_i32 *set, unsigned char *buffer, size_t capacity, size_t *length) {
    return rsb_u32_to_bytes(&set->rsb_private, buffer, capacity, length);
}

RSB_NODISCARD RSB_INLINE uint32_t rsb_i32_from_bytes(rsb_i32 *out, const unsigned char *bytes, size_t length, size_t *position, uint32_t *reason) {
    return rsb_u32_from_bytes(&out->rsb_private, bytes, length, position, reason);
}

#include "i32_arrays.h"
#include "i32_many.h"
#include "i32_text.h"
#include "i32_walk.h"

RSB_NODISCARD RSB_INLINE uint32_t rsb_i32_to_text(
    const rsb_i32 *set, char *buffer, size_t capacity, size_t *length) {
    return rsb_private_i32_write(set, buffer, capacity, length, false);
}

#ifdef __cplusplus
}
#endif

#endif
