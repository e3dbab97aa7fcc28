/* Values of 128 bits as two words. range_set.h includes this. */
#ifndef RANGE_SET_U128_VALUE_H
#define RANGE_SET_U128_VALUE_H

/* The value low + 2^64 * high. */
typedef struct rsb_u128_value {
    uint64_t low;
    uint64_t high;
} rsb_u128_value;

/* A number of members, low + 2^64 * high + 2^128 * top. top is 0, unless every value is a member;
   then low and high are 0, and top is 1. */
typedef struct rsb_u128_count {
    uint64_t low;
    uint64_t high;
    uint64_t top;
} rsb_u128_count;

/* The value 2^64 * high + low. The word with the higher digits comes first, as they are written. To
   initialize a static object in C, write {low, high} instead. */
#ifdef __cplusplus
#define RSB_U128(high, low) (rsb_u128_value{(low), (high)})
#else
#define RSB_U128(high, low) ((rsb_u128_value){(low), (high)})
#endif

/* The greatest value, 2^128 - 1. */
#define RSB_U128_MAX RSB_U128(UINT64_MAX, UINT64_MAX)

/* Returns -1, 0 or 1 if the left value is less than, equal to or greater than the right one. */
RSB_INLINE int rsb_u128_compare(rsb_u128_value left, rsb_u128_value right) {
    if (left.high != right.high) {
        return left.high < right.high ? -1 : 1;
    }
    return (left.low > right.low) - (left.low < right.low);
}

/* Returns the value plus 1, or 0 for the greatest one. */
RSB_INLINE rsb_u128_value rsb_u128_next(rsb_u128_value value) {
    value.low++;
    value.high += value.low == 0;
    return value;
}

/* Returns the value minus 1, or the greatest one for 0. */
RSB_INLINE rsb_u128_value rsb_u128_prev(rsb_u128_value value) {
    value.high -= value.low == 0;
    value.low--;
    return value;
}

#ifdef __SIZEOF_INT128__
/* Turn a number of a compiler that has 128 bits into a value, and back. */
__extension__ typedef unsigned __int128 rsb_private_u128;

RSB_INLINE rsb_u128_value rsb_u128_from(rsb_private_u128 number) {
    return RSB_U128(RSB_PRIVATE_AS(uint64_t, number >> 64), RSB_PRIVATE_AS(uint64_t, number));
}

RSB_INLINE rsb_private_u128 rsb_u128_get(rsb_u128_value value) {
    return (RSB_PRIVATE_AS(rsb_private_u128, value.high) << 64) | value.low;
}
#endif

#endif
