/* Signed numbers as text, for the headers of signed numbers. */
#ifndef RANGE_SET_SIGNED_H
#define RANGE_SET_SIGNED_H

/* A handle of signed numbers. In C, RSB_EMPTY initializes its first member, which is a plain pointer,
   so that a compiler does not ask for more braces. */
#ifdef __cplusplus
#define RSB_PRIVATE_HANDLE(name, unsigned_name) \
    typedef struct name { unsigned_name rsb_private; } name
#else
#define RSB_PRIVATE_HANDLE(name, unsigned_name) \
    typedef union name { void *rsb_first; unsigned_name rsb_private; } name
#endif

/* A number of any sign. */
typedef struct rsb_private_signed {
    rsb_u128_value magnitude;
    bool is_negative;
} rsb_private_signed;

RSB_INLINE void rsb_private_put_signed(rsb_private_page *page, rsb_private_signed number) {
    if (number.is_negative) {
        rsb_private_put(page, "-");
    }
    rsb_private_put_u128(page, number.magnitude);
}

RSB_INLINE void rsb_private_put_i64(rsb_private_page *page, int64_t number) {
    uint64_t magnitude = number < 0 ? 0 - RSB_PRIVATE_AS(uint64_t, number) : RSB_PRIVATE_AS(uint64_t, number);
    rsb_private_signed parts = {RSB_U128(0, magnitude), number < 0};
    rsb_private_put_signed(page, parts);
}

RSB_INLINE void rsb_private_put_i32(rsb_private_page *page, int32_t number) {
    rsb_private_put_i64(page, number);
}

/* Text that is read up to `at`. */
typedef struct rsb_private_scan {
    const char *text;
    size_t length;
    size_t at;
} rsb_private_scan;

/* Whether a byte comes next. If so, passes it. */
RSB_INLINE bool rsb_private_passes(rsb_private_scan *scan, char byte) {
    if (scan->at < scan->length && scan->text[scan->at] == byte) {
        scan->at++;
        return true;
    }
    return false;
}

RSB_INLINE void rsb_private_pass_blanks(rsb_private_scan *scan) {
    while (rsb_private_passes(scan, ' ') || rsb_private_passes(scan, '\t') || rsb_private_passes(scan, '\n')
        || rsb_private_passes(scan, '\r')) {
    }
}

/* Adds a digit at the end of a number, unless that is above the greatest one. */
RSB_INLINE bool rsb_private_add_digit(rsb_u128_value *number, unsigned digit, rsb_u128_value greatest) {
    unsigned last = rsb_private_last_digit(&greatest);
    int order = rsb_u128_compare(*number, greatest);
    if (order > 0 || (order == 0 && digit > last)) {
        return false;
    }
    uint64_t least = (number->low & UINT32_MAX) * 10 + digit;
    uint64_t most = (number->low >> 32) * 10 + (least >> 32);
    number->high = number->high * 10 + (most >> 32);
    number->low = most << 32 | (least & UINT32_MAX);
    return true;
}

/* Reads a number of this many bits, with blanks around it. If there is none, returns false, and the
   scan is at the first unexpected byte. */
RSB_INLINE bool rsb_private_read_number(rsb_private_scan *scan, unsigned bits, rsb_private_signed *number) {
    rsb_private_pass_blanks(scan);
    number->magnitude = RSB_U128(0, 0);
    number->is_negative = rsb_private_passes(scan, '-');
    if (!number->is_negative) {
        (void)rsb_private_passes(scan, '+');
    }
    rsb_u128_value greatest = {0, 0};
    if (bits > 64) {
        greatest.high = UINT64_C(1) << (bits - 65);
    } else {
        greatest.low = UINT64_C(1) << (bits - 1);
    }
    if (!number->is_negative) {
        greatest = rsb_u128_prev(greatest);
    }
    size_t start = scan->at;
    while (scan->at < scan->length && scan->text[scan->at] >= '0' && scan->text[scan->at] <= '9') {
        if (!rsb_private_add_digit(&number->magnitude, RSB_PRIVATE_AS(unsigned, scan->text[scan->at] - '0'), greatest)) {
            return false;
        }
        scan->at++;
    }
    if (scan->at == start) {
        return false;
    }
    rsb_private_pass_blanks(scan);
    return true;
}

/* Reads a range, and what ends it: a comma or the end of the text. If there is none, returns false,
   and the scan is at the first unexpected byte. */
RSB_INLINE bool rsb_private_read_range(
    rsb_private_scan *scan, unsigned bits, rsb_private_signed *first, rsb_private_signed *last) {
    if (!rsb_private_read_number(scan, bits, first)) {
        return false;
    }
    *last = *first;
    if (rsb_private_passes(scan, '.')) {
        if (!rsb_private_passes(scan, '.') || !rsb_private_passes(scan, '=')
            || !rsb_private_read_number(scan, bits, last)) {
            return false;
        }
    }
    return scan->at == scan->length || scan->text[scan->at] == ',';
}

#endif
