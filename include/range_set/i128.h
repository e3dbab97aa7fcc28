/* Written by tools/c/narrow from include/range_set.h. */
/* Sets of rsb_i128_value: the calls of range_set.h with i128 in place of u128. They are only
 * tested, and call those: a value is turned into one of rsb_u128_value in the same order
 * (docs/DECISIONS.md, signed-by-order). What range_set.h says about a call holds here too, but the
 * least value is RSB_I128_MIN and the greatest one RSB_I128_MAX. A number of values (`n`, `len`,
 * and what `len` and `rank` return) has no sign. rsb_i128_to_text does not allocate. */
#ifndef RANGE_SET_I128_H
#define RANGE_SET_I128_H

#include "../range_set.h"

#ifdef __cplusplus
extern "C" {
#endif

#include "signed.h"
#include "i128_value.h"

RSB_PRIVATE_HANDLE(rsb_i128, rsb_u128);
RSB_PRIVATE_HANDLE(rsb_i128_sets, rsb_u128_sets);

typedef struct rsb_i128_run {
    rsb_i128_value first;
    rsb_i128_value last;
} rsb_i128_run;

RSB_INLINE rsb_i128_run rsb_private_i128_run_out(rsb_u128_run run) {
    rsb_i128_run made = {rsb_private_i128_out(run.first), rsb_private_i128_out(run.last)};
    return made;
}

RSB_NODISCARD RSB_INLINE uint32_t rsb_i128_insert_range(rsb_i128 *set, rsb_i128_value first, rsb_i128_value last) {
    return rsb_u128_insert_range(&set->rsb_private, rsb_private_i128_in(first), rsb_private_i128_in(last));
}

RSB_NODISCARD RSB_INLINE uint32_t rsb_i128_insert(rsb_i128 *set, rsb_i128_value value) {
    return rsb_u128_insert(&set->rsb_private, rsb_private_i128_in(value));
}

RSB_NODISCARD RSB_INLINE uint32_t rsb_i128_remove(rsb_i128 *set, rsb_i128_value value) {
    return rsb_u128_remove(&set->rsb_private, rsb_private_i128_in(value));
}

RSB_NODISCARD RSB_INLINE uint32_t rsb_i128_remove_range(rsb_i128 *set, rsb_i128_value first, rsb_i128_value last) {
    return rsb_u128_remove_range(&set->rsb_private, rsb_private_i128_in(first), rsb_private_i128_in(last));
}

RSB_NODISCARD RSB_INLINE uint32_t rsb_i128_union_with(rsb_i128 *set, const rsb_i128 *other) {
    return rsb_u128_union_with(&set->rsb_private, &other->rsb_private);
}

RSB_NODISCARD RSB_INLINE uint32_t rsb_i128_intersect_with(rsb_i128 *set, const rsb_i128 *other) {
    return rsb_u128_intersect_with(&set->rsb_private, &other->rsb_private);
}

RSB_NODISCARD RSB_INLINE uint32_t rsb_i128_subtract(rsb_i128 *set, const rsb_i128 *other) {
    return rsb_u128_subtract(&set->rsb_private, &other->rsb_private);
}

RSB_NODISCARD RSB_INLINE uint32_t rsb_i128_xor_with(rsb_i128 *set, const rsb_i128 *other) {
    return rsb_u128_xor_with(&set->rsb_private, &other->rsb_private);
}

RSB_INLINE void rsb_i128_clear(rsb_i128 *set) {
    rsb_u128_clear(&set->rsb_private);
}

RSB_INLINE void rsb_i128_free(rsb_i128 *set) {
    rsb_u128_free(&set->rsb_private);
}

RSB_INLINE bool rsb_i128_contains(const rsb_i128 *set, rsb_i128_value value) {
    return rsb_u128_contains(&set->rsb_private, rsb_private_i128_in(value));
}

RSB_INLINE bool rsb_i128_contains_range(const rsb_i128 *set, rsb_i128_value first, rsb_i128_value last) {
    return rsb_u128_contains_range(&set->rsb_private, rsb_private_i128_in(first), rsb_private_i128_in(last));
}

RSB_INLINE bool rsb_i128_is_disjoint_range(const rsb_i128 *set, rsb_i128_value first, rsb_i128_value last) {
    return rsb_u128_is_disjoint_range(&set->rsb_private, rsb_private_i128_in(first), rsb_private_i128_in(last));
}

RSB_INLINE rsb_u128_count rsb_i128_len(const rsb_i128 *set) {
    return rsb_u128_len(&set->rsb_private);
}

RSB_INLINE rsb_u128_count rsb_i128_len_in(const rsb_i128 *set, rsb_i128_value first, rsb_i128_value last) {
    return rsb_u128_len_in(&set->rsb_private, rsb_private_i128_in(first), rsb_private_i128_in(last));
}

RSB_INLINE rsb_u128_count rsb_i128_rank(const rsb_i128 *set, rsb_i128_value value) {
    return rsb_u128_rank(&set->rsb_private, rsb_private_i128_in(value));
}

RSB_INLINE bool rsb_i128_nth(const rsb_i128 *set, rsb_u128_value n, rsb_i128_value *value) {
    rsb_u128_value found;
    bool is = rsb_u128_nth(&set->rsb_private, n, &found);
    if (is) {
        *value = rsb_private_i128_out(found);
    }
    return is;
}

RSB_INLINE size_t rsb_i128_run_count(const rsb_i128 *set) {
    return rsb_u128_run_count(&set->rsb_private);
}

RSB_INLINE bool rsb_i128_first(const rsb_i128 *set, rsb_i128_value *value) {
    rsb_u128_value found;
    bool is = rsb_u128_first(&set->rsb_private, &found);
    if (is) {
        *value = rsb_private_i128_out(found);
    }
    return is;
}

RSB_INLINE bool rsb_i128_last(const rsb_i128 *set, rsb_i128_value *value) {
    rsb_u128_value found;
    bool is = rsb_u128_last(&set->rsb_private, &found);
    if (is) {
        *value = rsb_private_i128_out(found);
    }
    return is;
}

RSB_INLINE bool rsb_i128_run_or_gap(const rsb_i128 *set, rsb_i128_value value, rsb_i128_run *block) {
    rsb_u128_run found;
    bool is = rsb_u128_run_or_gap(&set->rsb_private, rsb_private_i128_in(value), &found);
    *block = rsb_private_i128_run_out(found);
    return is;
}

RSB_INLINE bool rsb_i128_next_run(const rsb_i128 *set, rsb_i128_value from, rsb_i128_run *run) {
    rsb_u128_run found;
    bool is = rsb_u128_next_run(&set->rsb_private, rsb_private_i128_in(from), &found);
    if (is) {
        *run = rsb_private_i128_run_out(found);
    }
    return is;
}

RSB_INLINE bool rsb_i128_prev_run(const rsb_i128 *set, rsb_i128_value from, rsb_i128_run *run) {
    rsb_u128_run found;
    bool is = rsb_u128_prev_run(&set->rsb_private, rsb_private_i128_in(from), &found);
    if (is) {
        *run = rsb_private_i128_run_out(found);
    }
    return is;
}

RSB_INLINE bool rsb_i128_run_after(const rsb_i128 *set, rsb_i128_value value, rsb_i128_run *run) {
    rsb_u128_run found;
    bool is = rsb_u128_run_after(&set->rsb_private, rsb_private_i128_in(value), &found);
    if (is) {
        *run = rsb_private_i128_run_out(found);
    }
    return is;
}

RSB_INLINE bool rsb_i128_run_before(const rsb_i128 *set, rsb_i128_value value, rsb_i128_run *run) {
    rsb_u128_run found;
    bool is = rsb_u128_run_before(&set->rsb_private, rsb_private_i128_in(value), &found);
    if (is) {
        *run = rsb_private_i128_run_out(found);
    }
    return is;
}

RSB_INLINE bool rsb_i128_first_gap(const rsb_i128 *set, rsb_i128_value from, rsb_u128_value len, rsb_i128_run *gap) {
    rsb_u128_run found;
    bool is = rsb_u128_first_gap(&set->rsb_private, rsb_private_i128_in(from), len, &found);
    if (is) {
        *gap = rsb_private_i128_run_out(found);
    }
    return is;
}

RSB_INLINE bool rsb_i128_first_run_of(const rsb_i128 *set, rsb_i128_value from, rsb_u128_value len, rsb_i128_run *run) {
    rsb_u128_run found;
    bool is = rsb_u128_first_run_of(&set->rsb_private, rsb_private_i128_in(from), len, &found);
    if (is) {
        *run = rsb_private_i128_run_out(found);
    }
    return is;
}

RSB_NODISCARD RSB_INLINE uint32_t rsb_i128_union(rsb_i128 *out, const rsb_i128 *left, const rsb_i128 *right) {
    return rsb_u128_union(&out->rsb_private, &left->rsb_private, &right->rsb_private);
}

RSB_NODISCARD RSB_INLINE uint32_t rsb_i128_intersection(rsb_i128 *out, const rsb_i128 *left, const rsb_i128 *right) {
    return rsb_u128_intersection(&out->rsb_private, &left->rsb_private, &right->rsb_private);
}

RSB_NODISCARD RSB_INLINE uint32_t rsb_i128_difference(rsb_i128 *out, const rsb_i128 *left, const rsb_i128 *right) {
    return rsb_u128_difference(&out->rsb_private, &left->rsb_private, &right->rsb_private);
}

RSB_NODISCARD RSB_INLINE uint32_t rsb_i128_symmetric_difference(rsb_i128 *out, const rsb_i128 *left, const rsb_i128 *right) {
    return rsb_u128_symmetric_difference(&out->rsb_private, &left->rsb_private, &right->rsb_private);
}

RSB_NODISCARD RSB_INLINE uint32_t rsb_i128_complement(rsb_i128 *out, const rsb_i128 *set) {
    return rsb_u128_complement(&out->rsb_private, &set->rsb_private);
}

RSB_NODISCARD RSB_INLINE uint32_t rsb_i128_clone(rsb_i128 *out, const rsb_i128 *set) {
    return rsb_u128_clone(&out->rsb_private, &set->rsb_private);
}

RSB_INLINE bool rsb_i128_equal(const rsb_i128 *left, const rsb_i128 *right) {
    return rsb_u128_equal(&left->rsb_private, &right->rsb_private);
}

RSB_INLINE int32_t rsb_i128_order(const rsb_i128 *left, const rsb_i128 *right) {
    return rsb_u128_order(&left->rsb_private, &right->rsb_private);
}

RSB_INLINE bool rsb_i128_is_subset(const rsb_i128 *left, const rsb_i128 *right) {
    return rsb_u128_is_subset(&left->rsb_private, &right->rsb_private);
}

RSB_INLINE bool rsb_i128_is_disjoint(const rsb_i128 *left, const rsb_i128 *right) {
    return rsb_u128_is_disjoint(&left->rsb_private, &right->rsb_private);
}

RSB_NODISCARD RSB_INLINE uint32_t rsb_i128_sets_add(rsb_i128_sets *list, const rsb_i128 *set) {
    return rsb_u128_sets_add(&list->rsb_private, &set->rsb_private);
}

RSB_NODISCARD RSB_INLINE uint32_t rsb_i128_sets_union(rsb_i128 *out, const rsb_i128_sets *list) {
    return rsb_u128_sets_union(&out->rsb_private, &list->rsb_private);
}

RSB_NODISCARD RSB_INLINE uint32_t rsb_i128_sets_intersection(rsb_i128 *out, const rsb_i128_sets *list) {
    return rsb_u128_sets_intersection(&out->rsb_private, &list->rsb_private);
}

RSB_NODISCARD RSB_INLINE uint32_t rsb_i128_sets_symmetric_difference(rsb_i128 *out, const rsb_i128_sets *list) {
    return rsb_u128_sets_symmetric_difference(&out->rsb_private, &list->rsb_private);
}

RSB_NODISCARD RSB_INLINE uint32_t rsb_i128_sets_at_least(rsb_i128 *out, const rsb_i128_sets *list, size_t k) {
    return rsb_u128_sets_at_least(&out->rsb_private, &list->rsb_private, k);
}

RSB_INLINE void rsb_i128_sets_free(rsb_i128_sets *list) {
    rsb_u128_sets_free(&list->rsb_private);
}

RSB_NODISCARD RSB_INLINE uint32_t rsb_i128_to_bytes(const rsb_i128 *set, unsigned char *buffer, size_t capacity, size_t *length) {
    return rsb_u128_to_bytes(&set->rsb_private, buffer, capacity, length);
}

RSB_NODISCARD RSB_INLINE uint32_t rsb_i128_from_bytes(rsb_i128 *out, const unsigned char *bytes, size_t length, size_t *position, uint32_t *reason) {
    return rsb_u128_from_bytes(&out->rsb_private, bytes, length, position, reason);
}

#include "i128_arrays.h"
#include "i128_many.h"
#include "i128_text.h"
#include "i128_walk.h"

RSB_NODISCARD RSB_INLINE uint32_t rsb_i128_to_text(
    const rsb_i128 *set, char *buffer, size_t capacity, size_t *length) {
    return rsb_private_i128_write(set, buffer, capacity, length, false);
}

#ifdef __cplusplus
}
#endif

#endif
