/* Written by tools/c/narrow from include/range_set.h. */
/* The calls on sets of 128 bits with numbers of the compiler for values. A pointer to a number is one to a value, since both lie
 * in memory alike on a machine that stores the low word first. */
#ifndef WIDE_CALLS_H
#define WIDE_CALLS_H

#if SIGNED
RSB_NODISCARD RSB_INLINE uint32_t wide_i128_insert_range(rsb_i128 *set, number first, number last) {
    return rsb_i128_insert_range(set, rsb_i128_from(first), rsb_i128_from(last));
}

RSB_NODISCARD RSB_INLINE uint32_t wide_i128_insert(rsb_i128 *set, number value) {
    return rsb_i128_insert(set, rsb_i128_from(value));
}

RSB_NODISCARD RSB_INLINE uint32_t wide_i128_remove(rsb_i128 *set, number value) {
    return rsb_i128_remove(set, rsb_i128_from(value));
}

RSB_NODISCARD RSB_INLINE uint32_t wide_i128_remove_range(rsb_i128 *set, number first, number last) {
    return rsb_i128_remove_range(set, rsb_i128_from(first), rsb_i128_from(last));
}

RSB_NODISCARD RSB_INLINE uint32_t wide_i128_union_with(rsb_i128 *set, const rsb_i128 *other) {
    return rsb_i128_union_with(set, other);
}

RSB_NODISCARD RSB_INLINE uint32_t wide_i128_intersect_with(rsb_i128 *set, const rsb_i128 *other) {
    return rsb_i128_intersect_with(set, other);
}

RSB_NODISCARD RSB_INLINE uint32_t wide_i128_subtract(rsb_i128 *set, const rsb_i128 *other) {
    return rsb_i128_subtract(set, other);
}

RSB_NODISCARD RSB_INLINE uint32_t wide_i128_xor_with(rsb_i128 *set, const rsb_i128 *other) {
    return rsb_i128_xor_with(set, other);
}

RSB_INLINE void wide_i128_clear(rsb_i128 *set) {
    rsb_i128_clear(set);
}

RSB_INLINE void wide_i128_free(rsb_i128 *set) {
    rsb_i128_free(set);
}

RSB_INLINE bool wide_i128_contains(const rsb_i128 *set, number value) {
    return rsb_i128_contains(set, rsb_i128_from(value));
}

RSB_INLINE bool wide_i128_contains_range(const rsb_i128 *set, number first, number last) {
    return rsb_i128_contains_range(set, rsb_i128_from(first), rsb_i128_from(last));
}

RSB_INLINE bool wide_i128_is_disjoint_range(const rsb_i128 *set, number first, number last) {
    return rsb_i128_is_disjoint_range(set, rsb_i128_from(first), rsb_i128_from(last));
}

RSB_INLINE rsb_u128_count wide_i128_len(const rsb_i128 *set) {
    return rsb_i128_len(set);
}

RSB_INLINE rsb_u128_count wide_i128_len_in(const rsb_i128 *set, number first, number last) {
    return rsb_i128_len_in(set, rsb_i128_from(first), rsb_i128_from(last));
}

RSB_INLINE rsb_u128_count wide_i128_rank(const rsb_i128 *set, number value) {
    return rsb_i128_rank(set, rsb_i128_from(value));
}

RSB_INLINE bool wide_i128_nth(const rsb_i128 *set, plain n, number *value) {
    return rsb_i128_nth(set, rsb_u128_from(n), (rsb_i128_value *)value);
}

RSB_INLINE size_t wide_i128_run_count(const rsb_i128 *set) {
    return rsb_i128_run_count(set);
}

RSB_INLINE bool wide_i128_first(const rsb_i128 *set, number *value) {
    return rsb_i128_first(set, (rsb_i128_value *)value);
}

RSB_INLINE bool wide_i128_last(const rsb_i128 *set, number *value) {
    return rsb_i128_last(set, (rsb_i128_value *)value);
}

RSB_INLINE bool wide_i128_run_or_gap(const rsb_i128 *set, number value, run_t *block) {
    return rsb_i128_run_or_gap(set, rsb_i128_from(value), (rsb_i128_run *)block);
}

RSB_INLINE bool wide_i128_next_run(const rsb_i128 *set, number from, run_t *run) {
    return rsb_i128_next_run(set, rsb_i128_from(from), (rsb_i128_run *)run);
}

RSB_INLINE bool wide_i128_prev_run(const rsb_i128 *set, number from, run_t *run) {
    return rsb_i128_prev_run(set, rsb_i128_from(from), (rsb_i128_run *)run);
}

RSB_INLINE bool wide_i128_run_after(const rsb_i128 *set, number value, run_t *run) {
    return rsb_i128_run_after(set, rsb_i128_from(value), (rsb_i128_run *)run);
}

RSB_INLINE bool wide_i128_run_before(const rsb_i128 *set, number value, run_t *run) {
    return rsb_i128_run_before(set, rsb_i128_from(value), (rsb_i128_run *)run);
}

RSB_INLINE bool wide_i128_first_gap(const rsb_i128 *set, number from, plain len, run_t *gap) {
    return rsb_i128_first_gap(set, rsb_i128_from(from), rsb_u128_from(len), (rsb_i128_run *)gap);
}

RSB_INLINE bool wide_i128_first_run_of(const rsb_i128 *set, number from, plain len, run_t *run) {
    return rsb_i128_first_run_of(set, rsb_i128_from(from), rsb_u128_from(len), (rsb_i128_run *)run);
}

RSB_NODISCARD RSB_INLINE uint32_t wide_i128_union(rsb_i128 *out, const rsb_i128 *left, const rsb_i128 *right) {
    return rsb_i128_union(out, left, right);
}

RSB_NODISCARD RSB_INLINE uint32_t wide_i128_intersection(rsb_i128 *out, const rsb_i128 *left, const rsb_i128 *right) {
    return rsb_i128_intersection(out, left, right);
}

RSB_NODISCARD RSB_INLINE uint32_t wide_i128_difference(rsb_i128 *out, const rsb_i128 *left, const rsb_i128 *right) {
    return rsb_i128_difference(out, left, right);
}

RSB_NODISCARD RSB_INLINE uint32_t wide_i128_symmetric_difference(rsb_i128 *out, const rsb_i128 *left, const rsb_i128 *right) {
    return rsb_i128_symmetric_difference(out, left, right);
}

RSB_NODISCARD RSB_INLINE uint32_t wide_i128_complement(rsb_i128 *out, const rsb_i128 *set) {
    return rsb_i128_complement(out, set);
}

RSB_NODISCARD RSB_INLINE uint32_t wide_i128_clone(rsb_i128 *out, const rsb_i128 *set) {
    return rsb_i128_clone(out, set);
}

RSB_INLINE bool wide_i128_equal(const rsb_i128 *left, const rsb_i128 *right) {
    return rsb_i128_equal(left, right);
}

RSB_INLINE int32_t wide_i128_order(const rsb_i128 *left, const rsb_i128 *right) {
    return rsb_i128_order(left, right);
}

RSB_INLINE bool wide_i128_is_subset(const rsb_i128 *left, const rsb_i128 *right) {
    return rsb_i128_is_subset(left, right);
}

RSB_INLINE bool wide_i128_is_disjoint(const rsb_i128 *left, const rsb_i128 *right) {
    return rsb_i128_is_disjoint(left, right);
}

RSB_NODISCARD RSB_INLINE uint32_t wide_i128_sets_add(rsb_i128_sets *list, const rsb_i128 *set) {
    return rsb_i128_sets_add(list, set);
}

RSB_NODISCARD RSB_INLINE uint32_t wide_i128_sets_union(rsb_i128 *out, const rsb_i128_sets *list) {
    return rsb_i128_sets_union(out, list);
}

RSB_NODISCARD RSB_INLINE uint32_t wide_i128_sets_intersection(rsb_i128 *out, const rsb_i128_sets *list) {
    return rsb_i128_sets_intersection(out, list);
}

RSB_NODISCARD RSB_INLINE uint32_t wide_i128_sets_symmetric_difference(rsb_i128 *out, const rsb_i128_sets *list) {
    return rsb_i128_sets_symmetric_difference(out, list);
}

RSB_NODISCARD RSB_INLINE uint32_t wide_i128_sets_at_least(rsb_i128 *out, const rsb_i128_sets *list, size_t k) {
    return rsb_i128_sets_at_least(out, list, k);
}

RSB_INLINE void wide_i128_sets_free(rsb_i128_sets *list) {
    rsb_i128_sets_free(list);
}

RSB_NODISCARD RSB_INLINE uint32_t wide_i128_to_bytes(const rsb_i128 *set, unsigned char *buffer, size_t capacity, size_t *length) {
    return rsb_i128_to_bytes(set, buffer, capacity, length);
}

RSB_NODISCARD RSB_INLINE uint32_t wide_i128_from_bytes(rsb_i128 *out, const unsigned char *bytes, size_t length, size_t *position, uint32_t *reason) {
    return rsb_i128_from_bytes(out, bytes, length, position, reason);
}

RSB_NODISCARD RSB_INLINE uint32_t wide_i128_to_text(const rsb_i128 *set, char *buffer, size_t capacity, size_t *length) {
    return rsb_i128_to_text(set, buffer, capacity, length);
}

RSB_NODISCARD RSB_INLINE uint32_t wide_i128_union_of(rsb_i128 *out, const rsb_i128 *const *sets, size_t count) {
    return rsb_i128_union_of(out, sets, count);
}

RSB_NODISCARD RSB_INLINE uint32_t wide_i128_intersection_of(rsb_i128 *out, const rsb_i128 *const *sets, size_t count) {
    return rsb_i128_intersection_of(out, sets, count);
}

RSB_NODISCARD RSB_INLINE uint32_t wide_i128_symmetric_difference_of(rsb_i128 *out, const rsb_i128 *const *sets, size_t count) {
    return rsb_i128_symmetric_difference_of(out, sets, count);
}

RSB_NODISCARD RSB_INLINE uint32_t wide_i128_at_least(rsb_i128 *out, const rsb_i128 *const *sets, size_t count, size_t k) {
    return rsb_i128_at_least(out, sets, count, k);
}

RSB_NODISCARD RSB_INLINE uint32_t wide_i128_to_short_text(const rsb_i128 *set, char *buffer, size_t capacity, size_t *length) {
    return rsb_i128_to_short_text(set, buffer, capacity, length);
}

RSB_INLINE bool wide_i128_is_empty(const rsb_i128 *set) {
    return rsb_i128_is_empty(set);
}

RSB_INLINE bool wide_i128_first_run(const rsb_i128 *set, run_t *run) {
    return rsb_i128_first_run(set, (rsb_i128_run *)run);
}

RSB_INLINE bool wide_i128_last_run(const rsb_i128 *set, run_t *run) {
    return rsb_i128_last_run(set, (rsb_i128_run *)run);
}

RSB_INLINE bool wide_i128_next_gap(const rsb_i128 *set, number from, run_t *gap) {
    return rsb_i128_next_gap(set, rsb_i128_from(from), (rsb_i128_run *)gap);
}

RSB_INLINE bool wide_i128_prev_gap(const rsb_i128 *set, number from, run_t *gap) {
    return rsb_i128_prev_gap(set, rsb_i128_from(from), (rsb_i128_run *)gap);
}

RSB_INLINE bool wide_i128_gap_after(const rsb_i128 *set, number value, run_t *gap) {
    return rsb_i128_gap_after(set, rsb_i128_from(value), (rsb_i128_run *)gap);
}

RSB_INLINE bool wide_i128_gap_before(const rsb_i128 *set, number value, run_t *gap) {
    return rsb_i128_gap_before(set, rsb_i128_from(value), (rsb_i128_run *)gap);
}

RSB_INLINE size_t wide_i128_runs_in(const rsb_i128 *set, number first, number last, run_t *runs, size_t count) {
    return rsb_i128_runs_in(set, rsb_i128_from(first), rsb_i128_from(last), (rsb_i128_run *)runs, count);
}

RSB_NODISCARD RSB_INLINE uint32_t wide_i128_from_runs(rsb_i128 *out, const run_t *runs, size_t count) {
    return rsb_i128_from_runs(out, (const rsb_i128_run *)runs, count);
}

RSB_NODISCARD RSB_INLINE uint32_t wide_i128_from_text_at(rsb_i128 *out, const char *text, size_t length, size_t *at) {
    return rsb_i128_from_text_at(out, text, length, at);
}

RSB_NODISCARD RSB_INLINE uint32_t wide_i128_from_text(rsb_i128 *out, const char *text, size_t length) {
    return rsb_i128_from_text(out, text, length);
}

#else
RSB_NODISCARD RSB_INLINE uint32_t wide_u128_insert_range(rsb_u128 *set, number first, number last) {
    return rsb_u128_insert_range(set, rsb_u128_from(first), rsb_u128_from(last));
}

RSB_NODISCARD RSB_INLINE uint32_t wide_u128_insert(rsb_u128 *set, number value) {
    return rsb_u128_insert(set, rsb_u128_from(value));
}

RSB_NODISCARD RSB_INLINE uint32_t wide_u128_remove(rsb_u128 *set, number value) {
    return rsb_u128_remove(set, rsb_u128_from(value));
}

RSB_NODISCARD RSB_INLINE uint32_t wide_u128_remove_range(rsb_u128 *set, number first, number last) {
    return rsb_u128_remove_range(set, rsb_u128_from(first), rsb_u128_from(last));
}

RSB_NODISCARD RSB_INLINE uint32_t wide_u128_union_with(rsb_u128 *set, const rsb_u128 *other) {
    return rsb_u128_union_with(set, other);
}

RSB_NODISCARD RSB_INLINE uint32_t wide_u128_intersect_with(rsb_u128 *set, const rsb_u128 *other) {
    return rsb_u128_intersect_with(set, other);
}

RSB_NODISCARD RSB_INLINE uint32_t wide_u128_subtract(rsb_u128 *set, const rsb_u128 *other) {
    return rsb_u128_subtract(set, other);
}

RSB_NODISCARD RSB_INLINE uint32_t wide_u128_xor_with(rsb_u128 *set, const rsb_u128 *other) {
    return rsb_u128_xor_with(set, other);
}

RSB_INLINE void wide_u128_clear(rsb_u128 *set) {
    rsb_u128_clear(set);
}

RSB_INLINE void wide_u128_free(rsb_u128 *set) {
    rsb_u128_free(set);
}

RSB_INLINE bool wide_u128_contains(const rsb_u128 *set, number value) {
    return rsb_u128_contains(set, rsb_u128_from(value));
}

RSB_INLINE bool wide_u128_contains_range(const rsb_u128 *set, number first, number last) {
    return rsb_u128_contains_range(set, rsb_u128_from(first), rsb_u128_from(last));
}

RSB_INLINE bool wide_u128_is_disjoint_range(const rsb_u128 *set, number first, number last) {
    return rsb_u128_is_disjoint_range(set, rsb_u128_from(first), rsb_u128_from(last));
}

RSB_INLINE rsb_u128_count wide_u128_len(const rsb_u128 *set) {
    return rsb_u128_len(set);
}

RSB_INLINE rsb_u128_count wide_u128_len_in(const rsb_u128 *set, number first, number last) {
    return rsb_u128_len_in(set, rsb_u128_from(first), rsb_u128_from(last));
}

RSB_INLINE rsb_u128_count wide_u128_rank(const rsb_u128 *set, number value) {
    return rsb_u128_rank(set, rsb_u128_from(value));
}

RSB_INLINE bool wide_u128_nth(const rsb_u128 *set, number n, number *value) {
    return rsb_u128_nth(set, rsb_u128_from(n), (rsb_u128_value *)value);
}

RSB_INLINE size_t wide_u128_run_count(const rsb_u128 *set) {
    return rsb_u128_run_count(set);
}

RSB_INLINE bool wide_u128_first(const rsb_u128 *set, number *value) {
    return rsb_u128_first(set, (rsb_u128_value *)value);
}

RSB_INLINE bool wide_u128_last(const rsb_u128 *set, number *value) {
    return rsb_u128_last(set, (rsb_u128_value *)value);
}

RSB_INLINE bool wide_u128_run_or_gap(const rsb_u128 *set, number value, run_t *block) {
    return rsb_u128_run_or_gap(set, rsb_u128_from(value), (rsb_u128_run *)block);
}

RSB_INLINE bool wide_u128_next_run(const rsb_u128 *set, number from, run_t *run) {
    return rsb_u128_next_run(set, rsb_u128_from(from), (rsb_u128_run *)run);
}

RSB_INLINE bool wide_u128_prev_run(const rsb_u128 *set, number from, run_t *run) {
    return rsb_u128_prev_run(set, rsb_u128_from(from), (rsb_u128_run *)run);
}

RSB_INLINE bool wide_u128_run_after(const rsb_u128 *set, number value, run_t *run) {
    return rsb_u128_run_after(set, rsb_u128_from(value), (rsb_u128_run *)run);
}

RSB_INLINE bool wide_u128_run_before(const rsb_u128 *set, number value, run_t *run) {
    return rsb_u128_run_before(set, rsb_u128_from(value), (rsb_u128_run *)run);
}

RSB_INLINE size_t wide_u128_runs_in(const rsb_u128 *set, number first, number last, run_t *runs, size_t count) {
    return rsb_u128_runs_in(set, rsb_u128_from(first), rsb_u128_from(last), (rsb_u128_run *)runs, count);
}

RSB_INLINE bool wide_u128_first_gap(const rsb_u128 *set, number from, number len, run_t *gap) {
    return rsb_u128_first_gap(set, rsb_u128_from(from), rsb_u128_from(len), (rsb_u128_run *)gap);
}

RSB_INLINE bool wide_u128_first_run_of(const rsb_u128 *set, number from, number len, run_t *run) {
    return rsb_u128_first_run_of(set, rsb_u128_from(from), rsb_u128_from(len), (rsb_u128_run *)run);
}

RSB_NODISCARD RSB_INLINE uint32_t wide_u128_union(rsb_u128 *out, const rsb_u128 *left, const rsb_u128 *right) {
    return rsb_u128_union(out, left, right);
}

RSB_NODISCARD RSB_INLINE uint32_t wide_u128_intersection(rsb_u128 *out, const rsb_u128 *left, const rsb_u128 *right) {
    return rsb_u128_intersection(out, left, right);
}

RSB_NODISCARD RSB_INLINE uint32_t wide_u128_difference(rsb_u128 *out, const rsb_u128 *left, const rsb_u128 *right) {
    return rsb_u128_difference(out, left, right);
}

RSB_NODISCARD RSB_INLINE uint32_t wide_u128_symmetric_difference(rsb_u128 *out, const rsb_u128 *left, const rsb_u128 *right) {
    return rsb_u128_symmetric_difference(out, left, right);
}

RSB_NODISCARD RSB_INLINE uint32_t wide_u128_complement(rsb_u128 *out, const rsb_u128 *set) {
    return rsb_u128_complement(out, set);
}

RSB_NODISCARD RSB_INLINE uint32_t wide_u128_clone(rsb_u128 *out, const rsb_u128 *set) {
    return rsb_u128_clone(out, set);
}

RSB_NODISCARD RSB_INLINE uint32_t wide_u128_from_runs(rsb_u128 *out, const run_t *runs, size_t count) {
    return rsb_u128_from_runs(out, (const rsb_u128_run *)runs, count);
}

RSB_NODISCARD RSB_INLINE uint32_t wide_u128_from_text(rsb_u128 *out, const char *text, size_t length) {
    return rsb_u128_from_text(out, text, length);
}

RSB_NODISCARD RSB_INLINE uint32_t wide_u128_from_text_at(rsb_u128 *out, const char *text, size_t length, size_t *at) {
    return rsb_u128_from_text_at(out, text, length, at);
}

RSB_NODISCARD RSB_INLINE uint32_t wide_u128_to_text(const rsb_u128 *set, char *buffer, size_t capacity, size_t *length) {
    return rsb_u128_to_text(set, buffer, capacity, length);
}

RSB_INLINE bool wide_u128_equal(const rsb_u128 *left, const rsb_u128 *right) {
    return rsb_u128_equal(left, right);
}

RSB_INLINE int32_t wide_u128_order(const rsb_u128 *left, const rsb_u128 *right) {
    return rsb_u128_order(left, right);
}

RSB_INLINE bool wide_u128_is_subset(const rsb_u128 *left, const rsb_u128 *right) {
    return rsb_u128_is_subset(left, right);
}

RSB_INLINE bool wide_u128_is_disjoint(const rsb_u128 *left, const rsb_u128 *right) {
    return rsb_u128_is_disjoint(left, right);
}

RSB_NODISCARD RSB_INLINE uint32_t wide_u128_sets_add(rsb_u128_sets *list, const rsb_u128 *set) {
    return rsb_u128_sets_add(list, set);
}

RSB_NODISCARD RSB_INLINE uint32_t wide_u128_sets_union(rsb_u128 *out, const rsb_u128_sets *list) {
    return rsb_u128_sets_union(out, list);
}

RSB_NODISCARD RSB_INLINE uint32_t wide_u128_sets_intersection(rsb_u128 *out, const rsb_u128_sets *list) {
    return rsb_u128_sets_intersection(out, list);
}

RSB_NODISCARD RSB_INLINE uint32_t wide_u128_sets_symmetric_difference(rsb_u128 *out, const rsb_u128_sets *list) {
    return rsb_u128_sets_symmetric_difference(out, list);
}

RSB_NODISCARD RSB_INLINE uint32_t wide_u128_sets_at_least(rsb_u128 *out, const rsb_u128_sets *list, size_t k) {
    return rsb_u128_sets_at_least(out, list, k);
}

RSB_INLINE void wide_u128_sets_free(rsb_u128_sets *list) {
    rsb_u128_sets_free(list);
}

RSB_NODISCARD RSB_INLINE uint32_t wide_u128_union_of(rsb_u128 *out, const rsb_u128 *const *sets, size_t count) {
    return rsb_u128_union_of(out, sets, count);
}

RSB_NODISCARD RSB_INLINE uint32_t wide_u128_intersection_of(rsb_u128 *out, const rsb_u128 *const *sets, size_t count) {
    return rsb_u128_intersection_of(out, sets, count);
}

RSB_NODISCARD RSB_INLINE uint32_t wide_u128_symmetric_difference_of(rsb_u128 *out, const rsb_u128 *const *sets, size_t count) {
    return rsb_u128_symmetric_difference_of(out, sets, count);
}

RSB_NODISCARD RSB_INLINE uint32_t wide_u128_at_least(rsb_u128 *out, const rsb_u128 *const *sets, size_t count, size_t k) {
    return rsb_u128_at_least(out, sets, count, k);
}

RSB_NODISCARD RSB_INLINE uint32_t wide_u128_to_short_text(const rsb_u128 *set, char *buffer, size_t capacity, size_t *length) {
    return rsb_u128_to_short_text(set, buffer, capacity, length);
}

RSB_INLINE bool wide_u128_is_empty(const rsb_u128 *set) {
    return rsb_u128_is_empty(set);
}

RSB_INLINE bool wide_u128_first_run(const rsb_u128 *set, run_t *run) {
    return rsb_u128_first_run(set, (rsb_u128_run *)run);
}

RSB_INLINE bool wide_u128_last_run(const rsb_u128 *set, run_t *run) {
    return rsb_u128_last_run(set, (rsb_u128_run *)run);
}

RSB_INLINE bool wide_u128_next_gap(const rsb_u128 *set, number from, run_t *gap) {
    return rsb_u128_next_gap(set, rsb_u128_from(from), (rsb_u128_run *)gap);
}

RSB_INLINE bool wide_u128_prev_gap(const rsb_u128 *set, number from, run_t *gap) {
    return rsb_u128_prev_gap(set, rsb_u128_from(from), (rsb_u128_run *)gap);
}

RSB_INLINE bool wide_u128_gap_after(const rsb_u128 *set, number value, run_t *gap) {
    return rsb_u128_gap_after(set, rsb_u128_from(value), (rsb_u128_run *)gap);
}

RSB_INLINE bool wide_u128_gap_before(const rsb_u128 *set, number value, run_t *gap) {
    return rsb_u128_gap_before(set, rsb_u128_from(value), (rsb_u128_run *)gap);
}

#endif

#endif
