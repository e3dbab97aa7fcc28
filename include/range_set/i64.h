/* Written by tools/c/narrow from include/range_set.h. */
/* Sets of int64_t: the calls of range_set.h with i64 in place of u64. They are only
 * tested, and call those: a value is turned into one of uint64_t in the same order
 * (docs/DECISIONS.md, signed-by-order). What range_set.h says about a call holds here too, but the
 * least value is INT64_MIN and the greatest one INT64_MAX. A number of values (`n`, `len`,
 * and what `len` and `rank` return) has no sign. rsb_i64_to_text does not allocate. */
#ifndef RANGE_SET_I64_H
#define RANGE_SET_I64_H

#include "../range_set.h"

#ifdef __cplusplus
extern "C" {
#endif

#include "signed.h"
#include "i64_value.h"

RSB_PRIVATE_HANDLE(rsb_i64, rsb_u64);
RSB_PRIVATE_HANDLE(rsb_i64_sets, rsb_u64_sets);

typedef struct rsb_i64_run {
    int64_t first;
    int64_t last;
} rsb_i64_run;

RSB_INLINE rsb_i64_run rsb_private_i64_run_out(rsb_u64_run run) {
    rsb_i64_run made = {rsb_private_i64_out(run.first), rsb_private_i64_out(run.last)};
    return made;
}

RSB_NODISCARD RSB_INLINE uint32_t rsb_i64_insert_range(rsb_i64 *set, int64_t first, int64_t last) {
    return rsb_u64_insert_range(&set->rsb_private, rsb_private_i64_in(first), rsb_private_i64_in(last));
}

RSB_NODISCARD RSB_INLINE uint32_t rsb_i64_insert(rsb_i64 *set, int64_t value) {
    return rsb_u64_insert(&set->rsb_private, rsb_private_i64_in(value));
}

RSB_NODISCARD RSB_INLINE uint32_t rsb_i64_remove(rsb_i64 *set, int64_t value) {
    return rsb_u64_remove(&set->rsb_private, rsb_private_i64_in(value));
}

RSB_NODISCARD RSB_INLINE uint32_t rsb_i64_remove_range(rsb_i64 *set, int64_t first, int64_t last) {
    return rsb_u64_remove_range(&set->rsb_private, rsb_private_i64_in(first), rsb_private_i64_in(last));
}

RSB_NODISCARD RSB_INLINE uint32_t rsb_i64_union_with(rsb_i64 *set, const rsb_i64 *other) {
    return rsb_u64_union_with(&set->rsb_private, &other->rsb_private);
}

RSB_NODISCARD RSB_INLINE uint32_t rsb_i64_intersect_with(rsb_i64 *set, const rsb_i64 *other) {
    return rsb_u64_intersect_with(&set->rsb_private, &other->rsb_private);
}

RSB_NODISCARD RSB_INLINE uint32_t rsb_i64_subtract(rsb_i64 *set, const rsb_i64 *other) {
    return rsb_u64_subtract(&set->rsb_private, &other->rsb_private);
}

RSB_NODISCARD RSB_INLINE uint32_t rsb_i64_xor_with(rsb_i64 *set, const rsb_i64 *other) {
    return rsb_u64_xor_with(&set->rsb_private, &other->rsb_private);
}

RSB_INLINE void rsb_i64_clear(rsb_i64 *set) {
    rsb_u64_clear(&set->rsb_private);
}

RSB_INLINE void rsb_i64_free(rsb_i64 *set) {
    rsb_u64_free(&set->rsb_private);
}

RSB_INLINE bool rsb_i64_contains(const rsb_i64 *set, int64_t value) {
    return rsb_u64_contains(&set->rsb_private, rsb_private_i64_in(value));
}

RSB_INLINE bool rsb_i64_contains_range(const rsb_i64 *set, int64_t first, int64_t last) {
    return rsb_u64_contains_range(&set->rsb_private, rsb_private_i64_in(first), rsb_private_i64_in(last));
}

RSB_INLINE bool rsb_i64_is_disjoint_range(const rsb_i64 *set, int64_t first, int64_t last) {
    return rsb_u64_is_disjoint_range(&set->rsb_private, rsb_private_i64_in(first), rsb_private_i64_in(last));
}

RSB_INLINE rsb_u64_count rsb_i64_len(const rsb_i64 *set) {
    return rsb_u64_len(&set->rsb_private);
}

RSB_INLINE rsb_u64_count rsb_i64_len_in(const rsb_i64 *set, int64_t first, int64_t last) {
    return rsb_u64_len_in(&set->rsb_private, rsb_private_i64_in(first), rsb_private_i64_in(last));
}

RSB_INLINE rsb_u64_count rsb_i64_rank(const rsb_i64 *set, int64_t value) {
    return rsb_u64_rank(&set->rsb_private, rsb_private_i64_in(value));
}

RSB_INLINE bool rsb_i64_nth(const rsb_i64 *set, uint64_t n, int64_t *value) {
    uint64_t found;
    bool is = rsb_u64_nth(&set->rsb_private, n, &found);
    if (is) {
        *value = rsb_private_i64_out(found);
    }
    return is;
}

RSB_INLINE size_t rsb_i64_run_count(const rsb_i64 *set) {
    return rsb_u64_run_count(&set->rsb_private);
}

RSB_INLINE bool rsb_i64_first(const rsb_i64 *set, int64_t *value) {
    uint64_t found;
    bool is = rsb_u64_first(&set->rsb_private, &found);
    if (is) {
        *value = rsb_private_i64_out(found);
    }
    return is;
}

RSB_INLINE bool rsb_i64_last(const rsb_i64 *set, int64_t *value) {
    uint64_t found;
    bool is = rsb_u64_last(&set->rsb_private, &found);
    if (is) {
        *value = rsb_private_i64_out(found);
    }
    return is;
}

RSB_INLINE bool rsb_i64_run_or_gap(const rsb_i64 *set, int64_t value, rsb_i64_run *block) {
    rsb_u64_run found;
    bool is = rsb_u64_run_or_gap(&set->rsb_private, rsb_private_i64_in(value), &found);
    *block = rsb_private_i64_run_out(found);
    return is;
}

RSB_INLINE bool rsb_i64_next_run(const rsb_i64 *set, int64_t from, rsb_i64_run *run) {
    rsb_u64_run found;
    bool is = rsb_u64_next_run(&set->rsb_private, rsb_private_i64_in(from), &found);
    if (is) {
        *run = rsb_private_i64_run_out(found);
    }
    return is;
}

RSB_INLINE bool rsb_i64_prev_run(const rsb_i64 *set, int64_t from, rsb_i64_run *run) {
    rsb_u64_run found;
    bool is = rsb_u64_prev_run(&set->rsb_private, rsb_private_i64_in(from), &found);
    if (is) {
        *run = rsb_private_i64_run_out(found);
    }
    return is;
}

RSB_INLINE bool rsb_i64_run_after(const rsb_i64 *set, int64_t value, rsb_i64_run *run) {
    rsb_u64_run found;
    bool is = rsb_u64_run_after(&set->rsb_private, rsb_private_i64_in(value), &found);
    if (is) {
        *run = rsb_private_i64_run_out(found);
    }
    return is;
}

RSB_INLINE bool rsb_i64_run_before(const rsb_i64 *set, int64_t value, rsb_i64_run *run) {
    rsb_u64_run found;
    bool is = rsb_u64_run_before(&set->rsb_private, rsb_private_i64_in(value), &found);
    if (is) {
        *run = rsb_private_i64_run_out(found);
    }
    return is;
}

RSB_INLINE bool rsb_i64_first_gap(const rsb_i64 *set, int64_t from, uint64_t len, rsb_i64_run *gap) {
    rsb_u64_run found;
    bool is = rsb_u64_first_gap(&set->rsb_private, rsb_private_i64_in(from), len, &found);
    if (is) {
        *gap = rsb_private_i64_run_out(found);
    }
    return is;
}

RSB_INLINE bool rsb_i64_first_run_of(const rsb_i64 *set, int64_t from, uint64_t len, rsb_i64_run *run) {
    rsb_u64_run found;
    bool is = rsb_u64_first_run_of(&set->rsb_private, rsb_private_i64_in(from), len, &found);
    if (is) {
        *run = rsb_private_i64_run_out(found);
    }
    return is;
}

RSB_NODISCARD RSB_INLINE uint32_t rsb_i64_union(rsb_i64 *out, const rsb_i64 *left, const rsb_i64 *right) {
    return rsb_u64_union(&out->rsb_private, &left->rsb_private, &right->rsb_private);
}

RSB_NODISCARD RSB_INLINE uint32_t rsb_i64_intersection(rsb_i64 *out, const rsb_i64 *left, const rsb_i64 *right) {
    return rsb_u64_intersection(&out->rsb_private, &left->rsb_private, &right->rsb_private);
}

RSB_NODISCARD RSB_INLINE uint32_t rsb_i64_difference(rsb_i64 *out, const rsb_i64 *left, const rsb_i64 *right) {
    return rsb_u64_difference(&out->rsb_private, &left->rsb_private, &right->rsb_private);
}

RSB_NODISCARD RSB_INLINE uint32_t rsb_i64_symmetric_difference(rsb_i64 *out, const rsb_i64 *left, const rsb_i64 *right) {
    return rsb_u64_symmetric_difference(&out->rsb_private, &left->rsb_private, &right->rsb_private);
}

RSB_NODISCARD RSB_INLINE uint32_t rsb_i64_complement(rsb_i64 *out, const rsb_i64 *set) {
    return rsb_u64_complement(&out->rsb_private, &set->rsb_private);
}

RSB_NODISCARD RSB_INLINE uint32_t rsb_i64_clone(rsb_i64 *out, const rsb_i64 *set) {
    return rsb_u64_clone(&out->rsb_private, &set->rsb_private);
}

RSB_INLINE bool rsb_i64_equal(const rsb_i64 *left, const rsb_i64 *right) {
    return rsb_u64_equal(&left->rsb_private, &right->rsb_private);
}

RSB_INLINE int32_t rsb_i64_order(const rsb_i64 *left, const rsb_i64 *right) {
    return rsb_u64_order(&left->rsb_private, &right->rsb_private);
}

RSB_INLINE bool rsb_i64_is_subset(const rsb_i64 *left, const rsb_i64 *right) {
    return rsb_u64_is_subset(&left->rsb_private, &right->rsb_private);
}

RSB_INLINE bool rsb_i64_is_disjoint(const rsb_i64 *left, const rsb_i64 *right) {
    return rsb_u64_is_disjoint(&left->rsb_private, &right->rsb_private);
}

RSB_NODISCARD RSB_INLINE uint32_t rsb_i64_sets_add(rsb_i64_sets *list, const rsb_i64 *set) {
    return rsb_u64_sets_add(&list->rsb_private, &set->rsb_private);
}

RSB_NODISCARD RSB_INLINE uint32_t rsb_i64_sets_union(rsb_i64 *out, const rsb_i64_sets *list) {
    return rsb_u64_sets_union(&out->rsb_private, &list->rsb_private);
}

RSB_NODISCARD RSB_INLINE uint32_t rsb_i64_sets_intersection(rsb_i64 *out, const rsb_i64_sets *list) {
    return rsb_u64_sets_intersection(&out->rsb_private, &list->rsb_private);
}

RSB_NODISCARD RSB_INLINE uint32_t rsb_i64_sets_symmetric_difference(rsb_i64 *out, const rsb_i64_sets *list) {
    return rsb_u64_sets_symmetric_difference(&out->rsb_private, &list->rsb_private);
}

RSB_NODISCARD RSB_INLINE uint32_t rsb_i64_sets_at_least(rsb_i64 *out, const rsb_i64_sets *list, size_t k) {
    return rsb_u64_sets_at_least(&out->rsb_private, &list->rsb_private, k);
}

RSB_INLINE void rsb_i64_sets_free(rsb_i64_sets *list) {
    rsb_u64_sets_free(&list->rsb_private);
}

RSB_NODISCARD RSB_INLINE uint32_t rsb_i64_to_bytes(const rsb_i64 *set, unsigned char *buffer, size_t capacity, size_t *length) {
    return rsb_u64_to_bytes(&set->rsb_private, buffer, capacity, length);
}

RSB_NODISCARD RSB_INLINE uint32_t rsb_i64_from_bytes(rsb_i64 *out, const unsigned char *bytes, size_t length, size_t *position, uint32_t *reason) {
    return rsb_u64_from_bytes(&out->rsb_private, bytes, length, position, reason);
}

#include "i64_arrays.h"
#include "i64_many.h"
#include "i64_text.h"
#include "i64_walk.h"

RSB_NODISCARD RSB_INLINE uint32_t rsb_i64_to_text(
    const rsb_i64 *set, char *buffer, size_t capacity, size_t *length) {
    return rsb_private_i64_write(set, buffer, capacity, length, false);
}

#ifdef __cplusplus
}
#endif

#endif
