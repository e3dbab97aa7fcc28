// The functions of range_set.h, by the width of the numbers. Only the class in range_set.hpp uses them.
#ifndef RANGE_SET_CALLS_HPP
#define RANGE_SET_CALLS_HPP

#include "../range_set.h"
#include "numbers.hpp"

namespace range_set::detail {

// How C has a number: as itself, or as two halves.
template <class Number> struct as_itself {
    using value = Number;
    static constexpr value to_c(Number number) noexcept { return number; }
    static constexpr Number from_c(value number) noexcept { return number; }
};

#ifdef RANGE_SET_HAS_128
struct as_halves {
    using value = rsb_u128_value;
    static constexpr value to_c(uint128 number) noexcept {
        return {static_cast<std::uint64_t>(number), static_cast<std::uint64_t>(number >> 64)};
    }
    static constexpr uint128 from_c(value number) noexcept { return uint128{number.high} << 64 | number.low; }
};
#endif

// The functions for one width. They have the names of range_set.h, except `either` (union), `both`
// (intersection), `left_alone` (difference) and `one_alone` (symmetric_difference).
#define RANGE_SET_CALLS(number, width, numbers)                                                                            \
    template <> struct calls<number> : numbers {                                                                           \
        using handle = rsb_##width;                                                                                        \
        using list = rsb_##width##_sets;                                                                                   \
        using run = rsb_##width##_run;                                                                                     \
        static constexpr auto insert_range = rsb_##width##_insert_range;                                                   \
        static constexpr auto insert = rsb_##width##_insert;                                                               \
        static constexpr auto remove = rsb_##width##_remove;                                                               \
        static constexpr auto remove_range = rsb_##width##_remove_range;                                                   \
        static constexpr auto union_with = rsb_##width##_union_with;                                                       \
        static constexpr auto intersect_with = rsb_##width##_intersect_with;                                               \
        static constexpr auto subtract = rsb_##width##_subtract;                                                           \
        static constexpr auto xor_with = rsb_##width##_xor_with;                                                           \
        static constexpr auto clear = rsb_##width##_clear;                                                                 \
        static constexpr auto free = rsb_##width##_free;                                                                   \
        static constexpr auto contains = rsb_##width##_contains;                                                           \
        static constexpr auto contains_range = rsb_##width##_contains_range;                                               \
        static constexpr auto is_disjoint_range = rsb_##width##_is_disjoint_range;                                         \
        static constexpr auto len = rsb_##width##_len;                                                                     \
        static constexpr auto len_in = rsb_##width##_len_in;                                                               \
        static constexpr auto rank = rsb_##width##_rank;                                                                   \
        static constexpr auto nth = rsb_##width##_nth;                                                                     \
        static constexpr auto run_count = rsb_##width##_run_count;                                                         \
        static constexpr auto first = rsb_##width##_first;                                                                 \
        static constexpr auto last = rsb_##width##_last;                                                                   \
        static constexpr auto run_or_gap = rsb_##width##_run_or_gap;                                                       \
        static constexpr auto next_run = rsb_##width##_next_run;                                                           \
        static constexpr auto prev_run = rsb_##width##_prev_run;                                                           \
        static constexpr auto run_after = rsb_##width##_run_after;                                                         \
        static constexpr auto run_before = rsb_##width##_run_before;                                                       \
        static constexpr auto runs_in = rsb_##width##_runs_in;                                                             \
        static constexpr auto first_gap = rsb_##width##_first_gap;                                                         \
        static constexpr auto first_run_of = rsb_##width##_first_run_of;                                                   \
        static constexpr auto next_gap = rsb_##width##_next_gap;                                                           \
        static constexpr auto prev_gap = rsb_##width##_prev_gap;                                                           \
        static constexpr auto gap_after = rsb_##width##_gap_after;                                                         \
        static constexpr auto gap_before = rsb_##width##_gap_before;                                                       \
        static constexpr auto from_runs = rsb_##width##_from_runs;                                                         \
        static constexpr auto to_bytes = rsb_##width##_to_bytes;                                                           \
        static constexpr auto from_bytes = rsb_##width##_from_bytes;                                                       \
        static constexpr auto either = rsb_##width##_union;                                                                \
        static constexpr auto both = rsb_##width##_intersection;                                                           \
        static constexpr auto left_alone = rsb_##width##_difference;                                                       \
        static constexpr auto one_alone = rsb_##width##_symmetric_difference;                                              \
        static constexpr auto complement = rsb_##width##_complement;                                                       \
        static constexpr auto clone = rsb_##width##_clone;                                                                 \
        static constexpr auto equal = rsb_##width##_equal;                                                                 \
        static constexpr auto order = rsb_##width##_order;                                                                 \
        static constexpr auto is_subset = rsb_##width##_is_subset;                                                         \
        static constexpr auto is_disjoint = rsb_##width##_is_disjoint;                                                     \
        static constexpr auto sets_add = rsb_##width##_sets_add;                                                           \
        static constexpr auto sets_union = rsb_##width##_sets_union;                                                       \
        static constexpr auto sets_intersection = rsb_##width##_sets_intersection;                                         \
        static constexpr auto sets_symmetric_difference = rsb_##width##_sets_symmetric_difference;                         \
        static constexpr auto sets_at_least = rsb_##width##_sets_at_least;                                                 \
        static constexpr auto sets_free = rsb_##width##_sets_free;                                                         \
    }

template <class Number> struct calls;
RANGE_SET_CALLS(std::uint32_t, u32, as_itself<std::uint32_t>);
RANGE_SET_CALLS(std::uint64_t, u64, as_itself<std::uint64_t>);
#ifdef RANGE_SET_HAS_128
RANGE_SET_CALLS(uint128, u128, as_halves);
#endif
#undef RANGE_SET_CALLS

} // namespace range_set::detail

#endif
