/* Sets of integers, kept as sorted runs that never touch, for C and languages that call C. The sets
 * of numbers with a sign are in range_set/i32.h, i64.h and i128.h.
 *
 * The functions are exports of the static library crates/range_set_c, whose contracts are proved.
 * Those that the headers in range_set/ define over the exports are only tested.
 * Each function does what this header says, for every set, every value and every failed allocation,
 * as long as its caller fulfills these duties. Nothing checks them:
 *
 *   - A handle begins as RSB_EMPTY, or as a struct of zeros: the empty set or the empty list, which
 *     owns no memory.
 *   - A handle and a copy of it are never both used. You may move a handle: copy it, and stop
 *     using the old one. Only these functions read or write what a handle holds.
 *   - Each pointer passed to a call is valid and not null. What it points to shares no memory with
 *     what the others point to, but handles may be the same, as said below.
 *   - An array has at least as many elements as the call is told. If that is 0, it may be null.
 *   - While a call changes a set, no other call uses its handle. If threads share a handle, they
 *     lock it, or all of them only read. A set may pass from one thread to another under a lock, or
 *     when a thread starts or is joined.
 *   - No call is made from a signal handler, or from the forked child of a process with threads.
 *   - malloc, realloc and free belong to one allocator, and align as those of the C library do.
 *
 * Handles of a call may be the same handle, which is then one set in several places. The result is
 * that of a call on different sets with the same members: rsb_u64_subtract(&a, &a) empties `a`, and
 * rsb_u64_difference(&a, &b, &a) sets `a` to `b` without `a`. C and C++ get this from functions in
 * range_set/u64_same.h. A program in another language loads the exports themselves, and must pass
 * them different handles.
 *
 * A freed handle is the empty set again, so you may free it twice or go on using it.
 *
 * A call leaves the set of a `const` handle unchanged, and does not allocate for it, except that
 * rsb_u64_to_text and rsb_u64_to_bytes allocate what they write, and rsb_u64_sets_add a copy. It
 * also writes nothing to that set, so several such calls may read one set at once. This last fact is
 * tested and not proved, since a contract assumes that no other call uses the same handles.
 */
#ifndef RANGE_SET_H
#define RANGE_SET_H

#include <stdbool.h>
#include <stddef.h>
#include <stdint.h>

/* The version of this header and of the library that it belongs to. */
#define RANGE_SET_VERSION "0.2.0"

#ifdef __cplusplus
extern "C" {
#endif

/* What a call that changes a set returns: one of the first three. The calls that read or write text
   or bytes return RSB_CHANGED, RSB_NO_MEMORY, or one that names them. A call that clears or frees a
   set always succeeds, and returns nothing. */
enum {
    RSB_UNCHANGED = 0, /* the set was already as requested, and is unchanged */
    RSB_CHANGED = 1,   /* the set is now as requested, and was not; or `out` is the new set */
    RSB_NO_MEMORY = 2, /* an allocation failed, and each set of the call is unchanged */
    RSB_BAD_TEXT = 3,  /* from_text: the text does not list ranges, and `out` is unchanged */
    RSB_NO_ROOM = 4,   /* to_text, to_bytes: they do not fit, and the buffer is unchanged */
    RSB_BAD_BYTES = 5  /* from_bytes: the bytes are not those of a set, and `out` is unchanged */
};

/* The empty set, or the empty list: `rsb_u64 set = RSB_EMPTY;`. In C++, a function that this header
   defines has external linkage, so that an inline function may call it. */
#ifdef __cplusplus
#define RSB_EMPTY {}
#define RSB_INLINE inline
#define RSB_PRIVATE_AS(type, value) static_cast<type>(value)
#else
#define RSB_EMPTY {0}
#define RSB_INLINE static inline
#define RSB_PRIVATE_AS(type, value) ((type)(value))
#endif

/* A compiler warns if a program ignores what these calls return, since that may be RSB_NO_MEMORY.
   Define RSB_NODISCARD as nothing before the header if you do not want that. Note that RSB_NO_MEMORY
   is not 0: `if (rsb_u64_insert(&set, 5))` is also true if the insertion failed. */
#ifndef RSB_NODISCARD
#if defined(__cplusplus) && __cplusplus >= 201703L
#define RSB_NODISCARD [[nodiscard]]
#elif defined(__GNUC__)
#define RSB_NODISCARD __attribute__((warn_unused_result))
#else
#define RSB_NODISCARD
#endif
#endif

#include "range_set/u128_value.h"
#include "range_set/text.h"

/* ---- Sets of uint64_t. */

typedef struct rsb_u64 {
    void *rsb_private;
} rsb_u64;

/* A run of members, or a gap between runs: all values from first to last, both included. */
typedef struct rsb_u64_run {
    uint64_t first;
    uint64_t last;
} rsb_u64_run;

/* A number of members, low + 2^64 * high. high is 0, unless every uint64_t is a member; then low is
   0 and high is 1. */
typedef struct rsb_u64_count {
    uint64_t low;
    uint64_t high;
} rsb_u64_count;

/* Adds the values from first to last, both included, or none if last is below first. Returns
   RSB_UNCHANGED if there is nothing to add. Does not allocate if there is nothing to add, or if
   first or the value before it is a member. */
RSB_NODISCARD uint32_t rsb_u64_insert_range(rsb_u64 *set, uint64_t first, uint64_t last);

/* Adds a value. Returns RSB_UNCHANGED, and does not allocate, if it was already a member. */
RSB_NODISCARD uint32_t rsb_u64_insert(rsb_u64 *set, uint64_t value);

/* Removes a value, which may need an allocation. Returns RSB_UNCHANGED, and does not allocate, if
   the value was not a member. */
RSB_NODISCARD uint32_t rsb_u64_remove(rsb_u64 *set, uint64_t value);

/* Removes the values from first to last, both included, or none if last is below first. Returns
   RSB_UNCHANGED, and does not allocate, if none of them was a member. Does not allocate either if
   the value after last is not a member or does not exist. */
RSB_NODISCARD uint32_t rsb_u64_remove_range(rsb_u64 *set, uint64_t first, uint64_t last);

/* Adds all members of another set, or none of them if an allocation fails. Returns RSB_UNCHANGED,
   and does not allocate, if all of them were already members. */
RSB_NODISCARD uint32_t rsb_u64_union_with(rsb_u64 *set, const rsb_u64 *other);

/* Removes the members that another set does not have. Returns RSB_UNCHANGED, and does not allocate,
   if it has all of them. Does not allocate either if the other set is empty. */
RSB_NODISCARD uint32_t rsb_u64_intersect_with(rsb_u64 *set, const rsb_u64 *other);

/* Removes all members of another set. Returns RSB_UNCHANGED, and does not allocate, if none of them
   was a member. */
RSB_NODISCARD uint32_t rsb_u64_subtract(rsb_u64 *set, const rsb_u64 *other);

/* Removes the members that another set has too, and adds the members that only the other set has.
   Returns RSB_UNCHANGED, and does not allocate, if the other set is empty. */
RSB_NODISCARD uint32_t rsb_u64_xor_with(rsb_u64 *set, const rsb_u64 *other);

/* Removes all members, but keeps a block of memory for later ones. rsb_u64_free frees that too. */
void rsb_u64_clear(rsb_u64 *set);

/* Frees all memory of the set, which is then empty. */
void rsb_u64_free(rsb_u64 *set);

/* Returns whether a value is a member. */
bool rsb_u64_contains(const rsb_u64 *set, uint64_t value);

/* Returns whether all values from first to last, both included, are members. If last is below
   first, there is no such value, and the result is true. */
bool rsb_u64_contains_range(const rsb_u64 *set, uint64_t first, uint64_t last);

/* Returns whether none of the values from first to last, both included, is a member. If last is
   below first, there is no such value, and the result is true. */
bool rsb_u64_is_disjoint_range(const rsb_u64 *set, uint64_t first, uint64_t last);

/* Returns the number of members. */
rsb_u64_count rsb_u64_len(const rsb_u64 *set);

/* Returns the number of members from first to last, both included, or 0 if last is below first.
   Takes a step for each run between them. */
rsb_u64_count rsb_u64_len_in(const rsb_u64 *set, uint64_t first, uint64_t last);

/* Returns the number of members below `value`, which need not be a member. Takes a step for each
   run up to it. */
rsb_u64_count rsb_u64_rank(const rsb_u64 *set, uint64_t value);

/* Stores in `value` the member that has exactly n members below it, and returns true. If there are
   at most n members, returns false, and `value` is unchanged. Takes a step for each run up to the
   member. */
bool rsb_u64_nth(const rsb_u64 *set, uint64_t n, uint64_t *value);

/* Returns the number of runs. */
size_t rsb_u64_run_count(const rsb_u64 *set);

/* Stores the least member in value and returns true. If the set is empty, returns false, and value
   is unchanged. */
bool rsb_u64_first(const rsb_u64 *set, uint64_t *value);

/* Stores the greatest member in value and returns true. If the set is empty, returns false, and
   value is unchanged. */
bool rsb_u64_last(const rsb_u64 *set, uint64_t *value);

/* Stores in `block` the run that contains `value`, and returns true. If `value` is not a member,
   stores the gap that contains it and returns false. A gap extends to the runs beside it, or to 0
   and UINT64_MAX if there are none. */
bool rsb_u64_run_or_gap(const rsb_u64 *set, uint64_t value, rsb_u64_run *block);

/* Stores in `run` the run that contains `from`, or otherwise the first run after it, and returns
   true. If there is none, returns false, and `run` is unchanged. */
bool rsb_u64_next_run(const rsb_u64 *set, uint64_t from, rsb_u64_run *run);

/* Stores in `run` the run that contains `from`, or otherwise the last run before it, and returns
   true. If there is none, returns false, and `run` is unchanged. */
bool rsb_u64_prev_run(const rsb_u64 *set, uint64_t from, rsb_u64_run *run);

/* Stores in `run` the first run that starts after `value`, and returns true. If there is none,
   returns false, and `run` is unchanged. This loop goes over all runs, and ends for every set:

     for (bool more = rsb_u64_next_run(&set, 0, &run); more;
          more = rsb_u64_run_after(&set, run.last, &run)) */
bool rsb_u64_run_after(const rsb_u64 *set, uint64_t value, rsb_u64_run *run);

/* Stores in `run` the last run that ends before `value`, and returns true. If there is none,
   returns false, and `run` is unchanged. This loop goes over all runs in descending order:

     for (bool more = rsb_u64_prev_run(&set, UINT64_MAX, &run); more;
          more = rsb_u64_run_before(&set, run.first, &run)) */
bool rsb_u64_run_before(const rsb_u64 *set, uint64_t value, rsb_u64_run *run);

/* Stores in `runs` the runs of the members from first to last, both included, in ascending order,
   until it has stored `count` of them or none is left. Returns how many it stored. The rest of the
   array is unchanged. A run that crosses a bound is shortened to its values between the bounds. If
   last is below first, there are no runs. The call searches the set once for the whole array, so
   this loop goes over all runs faster than single steps. It ends for every set:

     uint64_t next = 0;
     do {
         size_t stored = rsb_u64_runs_in(&set, next, UINT64_MAX, runs, 64);
         ...
         next = stored == 64 ? runs[63].last + 1 : 0; // 0 after UINT64_MAX
     } while (next > 0); */
size_t rsb_u64_runs_in(const rsb_u64 *set, uint64_t first, uint64_t last, rsb_u64_run *runs, size_t count);

/* Stores in `gap` the first gap that has at least `len` values at or after `from`, and returns
   true. If that gap starts before `from`, stores only its part at or after `from`. If there is no
   such gap, returns false, and `gap` is unchanged. Takes a step for each run between `from` and the
   gap. */
bool rsb_u64_first_gap(const rsb_u64 *set, uint64_t from, uint64_t len, rsb_u64_run *gap);

/* Stores in `run` the first run that has at least `len` members at or after `from`, and returns
   true. If that run starts before `from`, stores only its part at or after `from`. If there is no
   such run, returns false, and `run` is unchanged. Takes a step for each run between `from` and the
   run. In the set of what is free, this finds room. */
bool rsb_u64_first_run_of(const rsb_u64 *set, uint64_t from, uint64_t len, rsb_u64_run *run);

/* Set `out` to the union, the intersection, the difference (left without right) or the symmetric
   difference of two sets, to the complement of a set, or to a copy of it. Return RSB_CHANGED and
   free what `out` held before, or return RSB_NO_MEMORY and leave `out` unchanged. */
RSB_NODISCARD uint32_t rsb_u64_union(rsb_u64 *out, const rsb_u64 *left, const rsb_u64 *right);
RSB_NODISCARD uint32_t rsb_u64_intersection(rsb_u64 *out, const rsb_u64 *left, const rsb_u64 *right);
RSB_NODISCARD uint32_t rsb_u64_difference(rsb_u64 *out, const rsb_u64 *left, const rsb_u64 *right);
RSB_NODISCARD uint32_t rsb_u64_symmetric_difference(rsb_u64 *out, const rsb_u64 *left, const rsb_u64 *right);
RSB_NODISCARD uint32_t rsb_u64_complement(rsb_u64 *out, const rsb_u64 *set);
RSB_NODISCARD uint32_t rsb_u64_clone(rsb_u64 *out, const rsb_u64 *set);

/* Sets `out` to the values of `count` runs, which may come in any order, overlap and touch. A run
   whose last value is below its first one has no values. Returns RSB_CHANGED, or returns
   RSB_NO_MEMORY and leaves `out` unchanged. Does not allocate if `count` is 0. */
RSB_NODISCARD uint32_t rsb_u64_from_runs(rsb_u64 *out, const rsb_u64_run *runs, size_t count);

/* Sets `out` to the values of the ranges that `text` lists, such as 1..=5, 10..=20. The ranges may
   come in any order, and 7 means 7..=7. Blanks may be around each number. Empty text gives the
   empty set. The text needs no zero byte at its end.
   Returns RSB_CHANGED, or leaves `out` unchanged and returns RSB_BAD_TEXT or RSB_NO_MEMORY. It
   returns RSB_BAD_TEXT only if the text does not list ranges of uint64_t, and RSB_NO_MEMORY only if
   an allocation failed. The call does without some blocks, and so may succeed after a failed
   allocation. Does not allocate if `length` is 0. */
RSB_NODISCARD uint32_t rsb_u64_from_text(rsb_u64 *out, const char *text, size_t length);

/* Does the same. If it returns RSB_BAD_TEXT, it also stores in `at` the position of the first byte
   that no such text has there, counted from 0: `length` if the text ends too early, and a digit if
   the number is too great with it. Otherwise, `at` is unchanged. */
RSB_NODISCARD uint32_t rsb_u64_from_text_at(rsb_u64 *out, const char *text, size_t length, size_t *at);

/* Writes the text of a set, such as 1..=5, 10..=20, to the start of `buffer`, with no zero byte at
   its end. rsb_u64_from_text reads it as the same set. Stores the length of the text in `length`,
   also if the text is longer than `capacity`: then returns RSB_NO_ROOM, and `buffer` is unchanged.
   Otherwise returns RSB_CHANGED. If an allocation fails, returns RSB_NO_MEMORY, and `buffer` and
   `length` are unchanged. Does not allocate if the set is empty. */
RSB_NODISCARD uint32_t rsb_u64_to_text(const rsb_u64 *set, char *buffer, size_t capacity, size_t *length);

/* Returns whether two sets have the same members. */
bool rsb_u64_equal(const rsb_u64 *left, const rsb_u64 *right);

/* Returns -1, 0 or 1 if the left set is less than, equal to or greater than the right one. Sets
   compare as the ascending lists of their members do. */
int32_t rsb_u64_order(const rsb_u64 *left, const rsb_u64 *right);

/* Returns whether each member of the left set is a member of the right set. */
bool rsb_u64_is_subset(const rsb_u64 *left, const rsb_u64 *right);

/* Returns whether no member of the left set is a member of the right set. */
bool rsb_u64_is_disjoint(const rsb_u64 *left, const rsb_u64 *right);

/* A list of copies of sets, for calls on any number of sets. It begins as RSB_EMPTY, and
   rsb_u64_sets_free frees its memory. rsb_u64_union_of, rsb_u64_intersection_of,
   rsb_u64_symmetric_difference_of and rsb_u64_at_least take an array of pointers to handles
   instead (range_set/u64_many.h). */
typedef struct rsb_u64_sets {
    void *rsb_private;
} rsb_u64_sets;

/* Adds a copy of a set at the end of a list. Returns RSB_CHANGED, or returns RSB_NO_MEMORY and
   leaves the list unchanged. */
RSB_NODISCARD uint32_t rsb_u64_sets_add(rsb_u64_sets *list, const rsb_u64 *set);

/* Set `out` to the values in at least one of the sets of a list, in all of them, in an odd number
   of them, or in at least k of them. In an empty list, no value is in a set, and every value is in
   all of them. A set that was added twice counts twice. Return RSB_CHANGED and free what `out` held
   before, or return RSB_NO_MEMORY and leave `out` unchanged. */
RSB_NODISCARD uint32_t rsb_u64_sets_union(rsb_u64 *out, const rsb_u64_sets *list);
RSB_NODISCARD uint32_t rsb_u64_sets_intersection(rsb_u64 *out, const rsb_u64_sets *list);
RSB_NODISCARD uint32_t rsb_u64_sets_symmetric_difference(rsb_u64 *out, const rsb_u64_sets *list);
RSB_NODISCARD uint32_t rsb_u64_sets_at_least(rsb_u64 *out, const rsb_u64_sets *list, size_t k);

/* Frees all memory of the list, which is then empty. */
void rsb_u64_sets_free(rsb_u64_sets *list);

#include "range_set/u64_many.h"
#include "range_set/u64_same.h"
#include "range_set/u64_text.h"
#include "range_set/u64_walk.h"

/* ---- Sets of uint32_t: the same calls. A number of values is a plain uint64_t, and the greatest
   value is UINT32_MAX. */

/* Written by tools/c/narrow: u32 */
typedef struct rsb_u32 {
    void *rsb_private;
} rsb_u32;

typedef struct rsb_u32_run {
    uint32_t first;
    uint32_t last;
} rsb_u32_run;
RSB_NODISCARD uint32_t rsb_u32_insert_range(rsb_u32 *set, uint32_t first, uint32_t last);
RSB_NODISCARD uint32_t rsb_u32_insert(rsb_u32 *set, uint32_t value);
RSB_NODISCARD uint32_t rsb_u32_remove(rsb_u32 *set, uint32_t value);
RSB_NODISCARD uint32_t rsb_u32_remove_range(rsb_u32 *set, uint32_t first, uint32_t last);
RSB_NODISCARD uint32_t rsb_u32_union_with(rsb_u32 *set, const rsb_u32 *other);
RSB_NODISCARD uint32_t rsb_u32_intersect_with(rsb_u32 *set, const rsb_u32 *other);
RSB_NODISCARD uint32_t rsb_u32_subtract(rsb_u32 *set, const rsb_u32 *other);
RSB_NODISCARD uint32_t rsb_u32_xor_with(rsb_u32 *set, const rsb_u32 *other);
void rsb_u32_clear(rsb_u32 *set);
void rsb_u32_free(rsb_u32 *set);
bool rsb_u32_contains(const rsb_u32 *set, uint32_t value);
bool rsb_u32_contains_range(const rsb_u32 *set, uint32_t first, uint32_t last);
bool rsb_u32_is_disjoint_range(const rsb_u32 *set, uint32_t first, uint32_t last);
uint64_t rsb_u32_len(const rsb_u32 *set);
uint64_t rsb_u32_len_in(const rsb_u32 *set, uint32_t first, uint32_t last);
uint64_t rsb_u32_rank(const rsb_u32 *set, uint32_t value);
bool rsb_u32_nth(const rsb_u32 *set, uint64_t n, uint32_t *value);
size_t rsb_u32_run_count(const rsb_u32 *set);
bool rsb_u32_first(const rsb_u32 *set, uint32_t *value);
bool rsb_u32_last(const rsb_u32 *set, uint32_t *value);
bool rsb_u32_run_or_gap(const rsb_u32 *set, uint32_t value, rsb_u32_run *block);
bool rsb_u32_next_run(const rsb_u32 *set, uint32_t from, rsb_u32_run *run);
bool rsb_u32_prev_run(const rsb_u32 *set, uint32_t from, rsb_u32_run *run);
bool rsb_u32_run_after(const rsb_u32 *set, uint32_t value, rsb_u32_run *run);
bool rsb_u32_run_before(const rsb_u32 *set, uint32_t value, rsb_u32_run *run);
size_t rsb_u32_runs_in(const rsb_u32 *set, uint32_t first, uint32_t last, rsb_u32_run *runs, size_t count);
bool rsb_u32_first_gap(const rsb_u32 *set, uint32_t from, uint64_t len, rsb_u32_run *gap);
bool rsb_u32_first_run_of(const rsb_u32 *set, uint32_t from, uint64_t len, rsb_u32_run *run);
RSB_NODISCARD uint32_t rsb_u32_union(rsb_u32 *out, const rsb_u32 *left, const rsb_u32 *right);
RSB_NODISCARD uint32_t rsb_u32_intersection(rsb_u32 *out, const rsb_u32 *left, const rsb_u32 *right);
RSB_NODISCARD uint32_t rsb_u32_difference(rsb_u32 *out, const rsb_u32 *left, const rsb_u32 *right);
RSB_NODISCARD uint32_t rsb_u32_symmetric_difference(rsb_u32 *out, const rsb_u32 *left, const rsb_u32 *right);
RSB_NODISCARD uint32_t rsb_u32_complement(rsb_u32 *out, const rsb_u32 *set);
RSB_NODISCARD uint32_t rsb_u32_clone(rsb_u32 *out, const rsb_u32 *set);
RSB_NODISCARD uint32_t rsb_u32_from_runs(rsb_u32 *out, const rsb_u32_run *runs, size_t count);
RSB_NODISCARD uint32_t rsb_u32_from_text(rsb_u32 *out, const char *text, size_t length);
RSB_NODISCARD uint32_t rsb_u32_from_text_at(rsb_u32 *out, const char *text, size_t length, size_t *at);
RSB_NODISCARD uint32_t rsb_u32_to_text(const rsb_u32 *set, char *buffer, size_t capacity, size_t *length);
bool rsb_u32_equal(const rsb_u32 *left, const rsb_u32 *right);
int32_t rsb_u32_order(const rsb_u32 *left, const rsb_u32 *right);
bool rsb_u32_is_subset(const rsb_u32 *left, const rsb_u32 *right);
bool rsb_u32_is_disjoint(const rsb_u32 *left, const rsb_u32 *right);

typedef struct rsb_u32_sets {
    void *rsb_private;
} rsb_u32_sets;
RSB_NODISCARD uint32_t rsb_u32_sets_add(rsb_u32_sets *list, const rsb_u32 *set);
RSB_NODISCARD uint32_t rsb_u32_sets_union(rsb_u32 *out, const rsb_u32_sets *list);
RSB_NODISCARD uint32_t rsb_u32_sets_intersection(rsb_u32 *out, const rsb_u32_sets *list);
RSB_NODISCARD uint32_t rsb_u32_sets_symmetric_difference(rsb_u32 *out, const rsb_u32_sets *list);
RSB_NODISCARD uint32_t rsb_u32_sets_at_least(rsb_u32 *out, const rsb_u32_sets *list, size_t k);
void rsb_u32_sets_free(rsb_u32_sets *list);

#include "range_set/u32_many.h"
#include "range_set/u32_same.h"
#include "range_set/u32_text.h"
#include "range_set/u32_walk.h"
/* End */

/* ---- Sets of integers of 128 bits, such as IPv6 addresses and UUIDs: the same calls. A value is
   a struct of two words, also where a call takes a number of values (`n` and `len`). The greatest
   value is RSB_U128_MAX. */

/* Written by tools/c/narrow: u128 */
typedef struct rsb_u128 {
    void *rsb_private;
} rsb_u128;

typedef struct rsb_u128_run {
    rsb_u128_value first;
    rsb_u128_value last;
} rsb_u128_run;
RSB_NODISCARD uint32_t rsb_u128_insert_range(rsb_u128 *set, rsb_u128_value first, rsb_u128_value last);
RSB_NODISCARD uint32_t rsb_u128_insert(rsb_u128 *set, rsb_u128_value value);
RSB_NODISCARD uint32_t rsb_u128_remove(rsb_u128 *set, rsb_u128_value value);
RSB_NODISCARD uint32_t rsb_u128_remove_range(rsb_u128 *set, rsb_u128_value first, rsb_u128_value last);
RSB_NODISCARD uint32_t rsb_u128_union_with(rsb_u128 *set, const rsb_u128 *other);
RSB_NODISCARD uint32_t rsb_u128_intersect_with(rsb_u128 *set, const rsb_u128 *other);
RSB_NODISCARD uint32_t rsb_u128_subtract(rsb_u128 *set, const rsb_u128 *other);
RSB_NODISCARD uint32_t rsb_u128_xor_with(rsb_u128 *set, const rsb_u128 *other);
void rsb_u128_clear(rsb_u128 *set);
void rsb_u128_free(rsb_u128 *set);
bool rsb_u128_contains(const rsb_u128 *set, rsb_u128_value value);
bool rsb_u128_contains_range(const rsb_u128 *set, rsb_u128_value first, rsb_u128_value last);
bool rsb_u128_is_disjoint_range(const rsb_u128 *set, rsb_u128_value first, rsb_u128_value last);
rsb_u128_count rsb_u128_len(const rsb_u128 *set);
rsb_u128_count rsb_u128_len_in(const rsb_u128 *set, rsb_u128_value first, rsb_u128_value last);
rsb_u128_count rsb_u128_rank(const rsb_u128 *set, rsb_u128_value value);
bool rsb_u128_nth(const rsb_u128 *set, rsb_u128_value n, rsb_u128_value *value);
size_t rsb_u128_run_count(const rsb_u128 *set);
bool rsb_u128_first(const rsb_u128 *set, rsb_u128_value *value);
bool rsb_u128_last(const rsb_u128 *set, rsb_u128_value *value);
bool rsb_u128_run_or_gap(const rsb_u128 *set, rsb_u128_value value, rsb_u128_run *block);
bool rsb_u128_next_run(const rsb_u128 *set, rsb_u128_value from, rsb_u128_run *run);
bool rsb_u128_prev_run(const rsb_u128 *set, rsb_u128_value from, rsb_u128_run *run);
bool rsb_u128_run_after(const rsb_u128 *set, rsb_u128_value value, rsb_u128_run *run);
bool rsb_u128_run_before(const rsb_u128 *set, rsb_u128_value value, rsb_u128_run *run);
size_t rsb_u128_runs_in(const rsb_u128 *set, rsb_u128_value first, rsb_u128_value last, rsb_u128_run *runs, size_t count);
bool rsb_u128_first_gap(const rsb_u128 *set, rsb_u128_value from, rsb_u128_value len, rsb_u128_run *gap);
bool rsb_u128_first_run_of(const rsb_u128 *set, rsb_u128_value from, rsb_u128_value len, rsb_u128_run *run);
RSB_NODISCARD uint32_t rsb_u128_union(rsb_u128 *out, const rsb_u128 *left, const rsb_u128 *right);
RSB_NODISCARD uint32_t rsb_u128_intersection(rsb_u128 *out, const rsb_u128 *left, const rsb_u128 *right);
RSB_NODISCARD uint32_t rsb_u128_difference(rsb_u128 *out, const rsb_u128 *left, const rsb_u128 *right);
RSB_NODISCARD uint32_t rsb_u128_symmetric_difference(rsb_u128 *out, const rsb_u128 *left, const rsb_u128 *right);
RSB_NODISCARD uint32_t rsb_u128_complement(rsb_u128 *out, const rsb_u128 *set);
RSB_NODISCARD uint32_t rsb_u128_clone(rsb_u128 *out, const rsb_u128 *set);
RSB_NODISCARD uint32_t rsb_u128_from_runs(rsb_u128 *out, const rsb_u128_run *runs, size_t count);
RSB_NODISCARD uint32_t rsb_u128_from_text(rsb_u128 *out, const char *text, size_t length);
RSB_NODISCARD uint32_t rsb_u128_from_text_at(rsb_u128 *out, const char *text, size_t length, size_t *at);
RSB_NODISCARD uint32_t rsb_u128_to_text(const rsb_u128 *set, char *buffer, size_t capacity, size_t *length);
bool rsb_u128_equal(const rsb_u128 *left, const rsb_u128 *right);
int32_t rsb_u128_order(const rsb_u128 *left, const rsb_u128 *right);
bool rsb_u128_is_subset(const rsb_u128 *left, const rsb_u128 *right);
bool rsb_u128_is_disjoint(const rsb_u128 *left, const rsb_u128 *right);

typedef struct rsb_u128_sets {
    void *rsb_private;
} rsb_u128_sets;
RSB_NODISCARD uint32_t rsb_u128_sets_add(rsb_u128_sets *list, const rsb_u128 *set);
RSB_NODISCARD uint32_t rsb_u128_sets_union(rsb_u128 *out, const rsb_u128_sets *list);
RSB_NODISCARD uint32_t rsb_u128_sets_intersection(rsb_u128 *out, const rsb_u128_sets *list);
RSB_NODISCARD uint32_t rsb_u128_sets_symmetric_difference(rsb_u128 *out, const rsb_u128_sets *list);
RSB_NODISCARD uint32_t rsb_u128_sets_at_least(rsb_u128 *out, const rsb_u128_sets *list, size_t k);
void rsb_u128_sets_free(rsb_u128_sets *list);

#include "range_set/u128_many.h"
#include "range_set/u128_same.h"
#include "range_set/u128_text.h"
#include "range_set/u128_walk.h"
/* End */

#include "range_set/bytes.h"

#ifdef __cplusplus
}
#endif

#endif
