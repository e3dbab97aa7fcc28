/* Signed values of 128 bits as two words. i128.h includes this. */
#ifndef RANGE_SET_I128_VALUE_H
#define RANGE_SET_I128_VALUE_H

/* The value low + 2^64 * high. */
typedef struct rsb_i128_value {
    uint64_t low;
    int64_t high;
} rsb_i128_value;

/* The value 2^64 * high + low, as RSB_U128 makes it. */
#ifdef __cplusplus
#define RSB_I128(high, low) (rsb_i128_value{(low), (high)})
#else
#define RSB_I128(high, low) ((rsb_i128_value){(low), (high)})
#endif

/* The least value, -2^127, and the greatest one, 2^127 - 1. */
#define RSB_I128_MIN RSB_I128(INT64_MIN, 0)
#define RSB_I128_MAX RSB_I128(INT64_MAX, UINT64_MAX)

/* Turn a value into one of a set of 128 bits without a sign, in the same order, and back. */
RSB_INLINE rsb_u128_value rsb_private_i128_in(rsb_i128_value value) {
    return RSB_U128(RSB_PRIVATE_AS(uint64_t, value.high) ^ UINT64_C(1) << 63, value.low);
}

RSB_INLINE rsb_i128_value rsb_private_i128_out(rsb_u128_value value) {
    return RSB_I128(RSB_PRIVATE_AS(int64_t, value.high ^ UINT64_C(1) << 63), value.low);
}

/* Returns -1, 0 or 1 if the left value is less than, equal to or greater than the right one. */
RSB_INLINE int rsb_i128_compare(rsb_i128_value left, rsb_i128_value right) {
    return rsb_u128_compare(rsb_private_i128_in(left), rsb_private_i128_in(right));
}

/* Returns the value plus 1, or the least one for the greatest. */
RSB_INLINE rsb_i128_value rsb_i128_next(rsb_i128_value value) {
    return rsb_private_i128_out(rsb_u128_next(rsb_private_i128_in(value)));
}

/* Returns the value minus 1, or the greatest one for the least. */
RSB_INLINE rsb_i128_value rsb_i128_prev(rsb_i128_value value) {
    return rsb_private_i128_out(rsb_u128_prev(rsb_private_i128_in(value)));
}

RSB_INLINE void rsb_private_put_i128(rsb_private_page *page, rsb_i128_value value) {
    rsb_private_signed number = {RSB_U128(RSB_PRIVATE_AS(uint64_t, value.high), value.low), value.high < 0};
    if (number.is_negative) {
        number.magnitude.low = 0 - number.magnitude.low;
        number.magnitude.high = 0 - number.magnitude.high - (number.magnitude.low != 0);
    }
    rsb_private_put_signed(page, number);
}

/* The value of a number that was read. */
RSB_INLINE rsb_i128_value rsb_private_i128_of(rsb_private_signed number) {
    rsb_u128_value words = number.magnitude;
    if (number.is_negative) {
        words.low = 0 - words.low;
        words.high = 0 - words.high - (words.low != 0);
    }
    return RSB_I128(RSB_PRIVATE_AS(int64_t, words.high), words.low);
}

#ifdef __SIZEOF_INT128__
/* Turn a number of a compiler that has 128 bits into a value, and back. */
__extension__ typedef __int128 rsb_private_i128;

RSB_INLINE rsb_i128_value rsb_i128_from(rsb_private_i128 number) {
    rsb_u128_value words = rsb_u128_from(RSB_PRIVATE_AS(rsb_private_u128, number));
    return RSB_I128(RSB_PRIVATE_AS(int64_t, words.high), words.low);
}

RSB_INLINE rsb_private_i128 rsb_i128_get(rsb_i128_value value) {
    return RSB_PRIVATE_AS(
        rsb_private_i128, rsb_u128_get(RSB_U128(RSB_PRIVATE_AS(uint64_t, value.high), value.low)));
}
#endif

#endif
