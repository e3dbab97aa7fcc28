/* The calls that a test makes, for one kind of number: -DWIDTH=64, 32 or 128, and -DSIGNED=1 for signed numbers. A value of
 * 128 bits is a number of the compiler here, and wide_calls.h turns it into a value of the calls. */
#ifndef KINDS_H
#define KINDS_H

#include <range_set.h>
#include <range_set/i128.h>
#include <range_set/i32.h>
#include <range_set/i64.h>

#ifndef SIGNED
#define SIGNED 0
#endif

__extension__ typedef unsigned __int128 widest;
__extension__ typedef __int128 signed_widest;

/* Each kind has its calls, its numbers, and those of the same width that have no sign. */
#if SIGNED
#define SIGN "i"
#define GREATEST ((number)(~(plain)0 >> 1))
#define LEAST (-GREATEST - 1)
#else
#define SIGN "u"
#define GREATEST ((number)~(plain)0)
#define LEAST ((number)0)
#endif

#if WIDTH == 64
typedef uint64_t plain;
typedef rsb_u64_count count_t;
#if SIGNED
#define CALL(name) rsb_i64_##name
typedef int64_t number;
typedef rsb_i64 set_t;
typedef rsb_i64_sets list_t;
typedef rsb_i64_run run_t;
#else
#define CALL(name) rsb_u64_##name
typedef uint64_t number;
typedef rsb_u64 set_t;
typedef rsb_u64_sets list_t;
typedef rsb_u64_run run_t;
#endif
#elif WIDTH == 32
typedef uint32_t plain;
typedef uint64_t count_t;
#if SIGNED
#define CALL(name) rsb_i32_##name
typedef int32_t number;
typedef rsb_i32 set_t;
typedef rsb_i32_sets list_t;
typedef rsb_i32_run run_t;
#else
#define CALL(name) rsb_u32_##name
typedef uint32_t number;
typedef rsb_u32 set_t;
typedef rsb_u32_sets list_t;
typedef rsb_u32_run run_t;
#endif
#else
typedef widest plain;
typedef rsb_u128_count count_t;
#if SIGNED
#define CALL(name) wide_i128_##name
typedef signed_widest number;
typedef rsb_i128 set_t;
typedef rsb_i128_sets list_t;
#else
#define CALL(name) wide_u128_##name
typedef widest number;
typedef rsb_u128 set_t;
typedef rsb_u128_sets list_t;
#endif
/* It lies in memory as a run of the calls does. */
typedef struct run {
    number first;
    number last;
} run_t;
#include "wide_calls.h"
#endif

/* The number of members, and whether that is the number of all values of 128 bits. */
static inline widest counted(count_t count) {
#if WIDTH == 64
    return (widest)count.high << 64 | count.low;
#elif WIDTH == 32
    return count;
#else
    return count.top == 0 ? rsb_u128_get(RSB_U128(count.high, count.low)) : ~(widest)0;
#endif
}

static inline bool counts_all(count_t count) {
#if WIDTH == 128
    return count.top == 1 && count.high == 0 && count.low == 0;
#else
    return counted(count) == (widest)1 << WIDTH;
#endif
}

/* Writes a number to a buffer with room for it and a zero byte, and returns its length. */
static inline size_t write_number(char *text, number value) {
    char digits[40];
    size_t count = 0, length = 0;
    plain rest = (plain)value;
#if SIGNED
    if (value < 0) {
        text[length++] = '-';
        rest = 0 - rest;
    }
#endif
    do {
        digits[count++] = (char)('0' + (int)(rest % 10));
        rest /= 10;
    } while (rest > 0);
    while (count > 0) {
        text[length++] = digits[--count];
    }
    text[length] = '\0';
    return length;
}

#endif
