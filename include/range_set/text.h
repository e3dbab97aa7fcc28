/* Numbers as text, for the other headers. range_set.h includes this. */
#ifndef RANGE_SET_TEXT_H
#define RANGE_SET_TEXT_H

/* Text that is written to a buffer as far as it fits. `length` counts all of it. */
typedef struct rsb_private_page {
    char *buffer;
    size_t capacity;
    size_t length;
} rsb_private_page;

RSB_INLINE void rsb_private_put(rsb_private_page *page, const char *text) {
    for (; *text != '\0'; text++) {
        if (page->length < page->capacity) {
            page->buffer[page->length] = *text;
        }
        page->length++;
    }
}

/* Divides a number by 10, and returns the rest. */
RSB_INLINE unsigned rsb_private_last_digit(rsb_u128_value *number) {
    uint64_t most = (number->high % 10 << 32) | number->low >> 32;
    uint64_t least = (most % 10 << 32) | (number->low & UINT32_MAX);
    number->high /= 10;
    number->low = most / 10 << 32 | least / 10;
    return RSB_PRIVATE_AS(unsigned, least % 10);
}

RSB_INLINE void rsb_private_put_u128(rsb_private_page *page, rsb_u128_value number) {
    enum { MOST = 39 };
    char digits[MOST + 1];
    char *start = digits + MOST;
    *start = '\0';
    do {
        *--start = RSB_PRIVATE_AS(char, '0' + rsb_private_last_digit(&number));
    } while (number.high != 0 || number.low != 0);
    rsb_private_put(page, start);
}

RSB_INLINE void rsb_private_put_u64(rsb_private_page *page, uint64_t number) {
    rsb_private_put_u128(page, RSB_U128(0, number));
}

RSB_INLINE void rsb_private_put_u32(rsb_private_page *page, uint32_t number) {
    rsb_private_put_u64(page, number);
}

#endif
