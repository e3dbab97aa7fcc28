/* What programs look like whose authors guess the names of calls: short loops over runs and gaps, free blocks, ports as text,
 * temperatures below zero, and addresses of 128 bits. It compiles with no warning. */
#include <range_set.h>
#include <range_set/i64.h>

#include <stdio.h>
#include <stdlib.h>
#include <string.h>

#define CHECK(claim)                                                              \
    do {                                                                          \
        if (!(claim)) {                                                           \
            fprintf(stderr, "%s:%d: not so: %s\n", __FILE__, __LINE__, #claim);   \
            exit(1);                                                              \
        }                                                                         \
    } while (0)

/* Opening hours: the runs, the gaps between them, and both ends. */
static void hours(void) {
    rsb_u64 open = RSB_EMPTY;
    rsb_u64_run run, gap;
    size_t runs = 0, gaps = 0;
    CHECK(rsb_u64_is_empty(&open));
    CHECK(rsb_u64_insert_range(&open, 9, 11) == RSB_CHANGED && rsb_u64_insert_range(&open, 13, 18) == RSB_CHANGED);
    CHECK(rsb_u64_first_run(&open, &run) && run.first == 9);
    CHECK(rsb_u64_last_run(&open, &run) && run.last == 18);
    for (bool more = rsb_u64_first_run(&open, &run); more; more = rsb_u64_run_after(&open, run.last, &run)) {
        runs++;
    }
    for (bool more = rsb_u64_next_gap(&open, 0, &gap); more; more = rsb_u64_gap_after(&open, gap.last, &gap)) {
        gaps++;
    }
    CHECK(runs == 2 && gaps == 3 && gap.last == UINT64_MAX);
    rsb_u64_free(&open);
}

/* An allocator keeps the set of what is free. */
static void blocks(void) {
    rsb_u64 unused = RSB_EMPTY;
    rsb_u64_run room;
    CHECK(rsb_u64_insert_range(&unused, 0, 1023) == RSB_CHANGED && rsb_u64_remove_range(&unused, 16, 99) == RSB_CHANGED);
    CHECK(rsb_u64_first_run_of(&unused, 0, 64, &room) && room.first == 100);
    CHECK(rsb_u64_remove_range(&unused, room.first, room.first + 63) == RSB_CHANGED);
    CHECK(!rsb_u64_first_run_of(&unused, 0, 1000, &room));
    rsb_u64_free(&unused);
}

/* Ports as a configuration file lists them, and where it goes wrong. */
static void ports(void) {
    static const char wanted[] = "22, 80, 8000..=8100", wrong[] = "22,80,8000-8100";
    rsb_u32 set = RSB_EMPTY;
    char text[sizeof wanted];
    size_t length = 0, at = 0;
    CHECK(rsb_u32_from_text(&set, wanted, strlen(wanted)) == RSB_CHANGED && rsb_u32_len(&set) == 103);
    CHECK(rsb_u32_to_short_text(&set, text, sizeof text, &length) == RSB_CHANGED);
    CHECK(length == strlen(wanted) && memcmp(text, wanted, length) == 0);
    CHECK(rsb_u32_from_text_at(&set, wrong, strlen(wrong), &at) == RSB_BAD_TEXT && wrong[at] == '-');
    rsb_u32_free(&set);
}

static void temperatures(void) {
    rsb_i64 seen = RSB_EMPTY;
    rsb_i64_run run;
    char text[32];
    size_t length = 0;
    CHECK(rsb_i64_insert_range(&seen, -5, 10) == RSB_CHANGED && rsb_i64_contains(&seen, -1));
    CHECK(rsb_i64_first_run(&seen, &run) && run.first == -5 && run.last == 10);
    CHECK(rsb_i64_to_text(&seen, text, sizeof text, &length) == RSB_CHANGED && memcmp(text, "-5..=10", length) == 0);
    rsb_i64_free(&seen);
}

/* A set below zero in a file: its bytes are those that docs/FORMAT.md shows, and are read back as the same set. */
static void kept(void) {
    static const unsigned char wanted[] = "\xF5RSB\x01\x40\x01\xFF\xFF\xFF\xFF\xFF\xFF\xFF\xFF\x7F\xAD\x02";
    rsb_i64 seen = RSB_EMPTY, read = RSB_EMPTY;
    unsigned char bytes[64];
    size_t length, position;
    uint32_t reason;
    CHECK(rsb_i64_insert_range(&seen, -1, 300) == RSB_CHANGED);
    CHECK(rsb_i64_to_bytes(&seen, bytes, sizeof bytes, &length) == RSB_CHANGED);
    CHECK(length == sizeof wanted - 1 && memcmp(bytes, wanted, length) == 0);
    CHECK(rsb_i64_from_bytes(&read, bytes, length, &position, &reason) == RSB_CHANGED && rsb_i64_equal(&read, &seen));
    CHECK(rsb_i64_from_bytes(&read, bytes, 9, &position, &reason) == RSB_BAD_BYTES);
    CHECK(position == 9 && reason == RSB_CUT_SHORT && rsb_i64_equal(&read, &seen));
    rsb_i64_free(&seen);
    rsb_i64_free(&read);
}

static void addresses(void) {
    rsb_u128 routed = RSB_EMPTY;
    rsb_u128_value network = RSB_U128(UINT64_C(0x20010db800000000), 0);
    rsb_u128_value end = RSB_U128(UINT64_C(0x20010db8ffffffff), UINT64_MAX);
    CHECK(rsb_u128_insert_range(&routed, network, end) == RSB_CHANGED);
    CHECK(rsb_u128_contains(&routed, RSB_U128(UINT64_C(0x20010db800000000), 1)));
    CHECK(rsb_u128_len(&routed).high == UINT64_C(1) << 32 && rsb_u128_len(&routed).top == 0);
    rsb_u128_free(&routed);
}

int main(void) {
    hours();
    blocks();
    ports();
    temperatures();
    kept();
    addresses();
    puts("programs in their short form run");
    return 0;
}
