/* Sets as bytes, in the format of docs/FORMAT.md. range_set.h includes this file, and i64.h and its like have the same
 * calls for signed numbers.
 *
 * Equal sets of a width have equal bytes, and different ones different bytes, on every machine. */
#ifndef RANGE_SET_BYTES_H
#define RANGE_SET_BYTES_H

/* What is wrong with bytes that are not those of a set. */
enum {
    RSB_NOT_MAGIC = 1,     /* the byte is not that of the magic number */
    RSB_OTHER_VERSION = 2, /* the version of the format is not 1 */
    RSB_OTHER_WIDTH = 3,   /* the number of bits is not that of the handle */
    RSB_CUT_SHORT = 4,     /* the bytes end before the last run does */
    RSB_NOT_SHORTEST = 5,  /* the byte ends a number that has a shorter form */
    RSB_TOUCHING = 6,      /* the gap of a run is 0, so it touches the one before */
    RSB_PAST_GREATEST = 7, /* the number is too large: the runs would go past the greatest value */
    RSB_TOO_LONG = 8       /* the byte comes after the last run */
};

/* Writes the bytes of a set to the start of `buffer`, and stores their number in `length`, also if
   it is greater than `capacity`: then returns RSB_NO_ROOM, and `buffer` is unchanged. Otherwise
   returns RSB_CHANGED. If an allocation fails, returns RSB_NO_MEMORY, and `buffer` and `length` are
   unchanged. With 20 bytes for each run and 16 more, there is room. */
RSB_NODISCARD uint32_t rsb_u64_to_bytes(const rsb_u64 *set, unsigned char *buffer, size_t capacity, size_t *length);

/* Sets `out` to the set whose bytes these are, and returns RSB_CHANGED. If they are those of no set,
   stores the position of the first wrong byte in `position` and what is wrong with it in `reason`,
   and returns RSB_BAD_BYTES. If an allocation fails, returns RSB_NO_MEMORY. In both cases, `out` is
   unchanged. `position` and `reason` are unchanged unless it returns RSB_BAD_BYTES. Allocates memory
   only for runs that it has read, whatever count of runs the bytes announce. */
RSB_NODISCARD uint32_t rsb_u64_from_bytes(rsb_u64 *out, const unsigned char *bytes, size_t length, size_t *position, uint32_t *reason);

/* The same for uint32_t (with 10 bytes for each run, there is room) and for 128 bits (with 38). */
RSB_NODISCARD uint32_t rsb_u32_to_bytes(const rsb_u32 *set, unsigned char *buffer, size_t capacity, size_t *length);
RSB_NODISCARD uint32_t rsb_u32_from_bytes(rsb_u32 *out, const unsigned char *bytes, size_t length, size_t *position, uint32_t *reason);
RSB_NODISCARD uint32_t rsb_u128_to_bytes(const rsb_u128 *set, unsigned char *buffer, size_t capacity, size_t *length);
RSB_NODISCARD uint32_t rsb_u128_from_bytes(rsb_u128 *out, const unsigned char *bytes, size_t length, size_t *position, uint32_t *reason);

#endif
