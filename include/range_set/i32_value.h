/* Written by tools/c/narrow from include/range_set.h. */
/* Values of sets of int32_t as those of sets of uint32_t. i32.h includes this. */
#ifndef RANGE_SET_I32_VALUE_H
#define RANGE_SET_I32_VALUE_H

/* Turn a value into one of a set of uint32_t, in the same order, and back. */
RSB_INLINE uint32_t rsb_private_i32_in(int32_t value) {
    return RSB_PRIVATE_AS(uint32_t, value) ^ RSB_PRIVATE_AS(uint32_t, INT32_MIN);
}

RSB_INLINE int32_t rsb_private_i32_out(uint32_t value) {
    return RSB_PRIVATE_AS(int32_t, value ^ RSB_PRIVATE_AS(uint32_t, INT32_MIN));
}

/* The value of a number that was read. */
RSB_INLINE int32_t rsb_private_i32_of(rsb_private_signed number) {
    uint32_t magnitude = RSB_PRIVATE_AS(uint32_t, number.magnitude.low);
    return number.is_negative ? RSB_PRIVATE_AS(int32_t, 0 - magnitude) : RSB_PRIVATE_AS(int32_t, magnitude);
}

#endif
