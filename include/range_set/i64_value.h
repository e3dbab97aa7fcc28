/* Values of sets of int64_t as those of sets of uint64_t. i64.h includes this. */
#ifndef RANGE_SET_I64_VALUE_H
#define RANGE_SET_I64_VALUE_H

/* Turn a value into one of a set of uint64_t, in the same order, and back. */
RSB_INLINE uint64_t rsb_private_i64_in(int64_t value) {
    return RSB_PRIVATE_AS(uint64_t, value) ^ RSB_PRIVATE_AS(uint64_t, INT64_MIN);
}

RSB_INLINE int64_t rsb_private_i64_out(uint64_t value) {
    return RSB_PRIVATE_AS(int64_t, value ^ RSB_PRIVATE_AS(uint64_t, INT64_MIN));
}

/* The value of a number that was read. */
RSB_INLINE int64_t rsb_private_i64_of(rsb_private_signed number) {
    uint64_t magnitude = RSB_PRIVATE_AS(uint64_t, number.magnitude.low);
    return number.is_negative ? RSB_PRIVATE_AS(int64_t, 0 - magnitude) : RSB_PRIVATE_AS(int64_t, magnitude);
}

#endif
