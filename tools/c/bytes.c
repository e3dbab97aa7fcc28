/* Writes sets of one width as bytes and reads them back, with each allocation refused in turn. Beside the library stand a writer
 * and a reader of the format that are written again here, from docs/FORMAT.md. Whatever bytes both readers get, they tell the
 * same set, or the same place and reason. */
#include "tables.h"

/* Under a sanitizer, tools/c/run asks for fewer. */
#ifndef BYTE_ROUNDS
#define BYTE_ROUNDS 2000
#endif

enum { ROUNDS = BYTE_ROUNDS, MUTATIONS = 50, LONGEST = 32 + TABLE * 40, TENS_OF_THOUSANDS = 50000 };

/* These calls have no values, so they are the same for 128 bits. */
#if WIDTH == 128
#define BYTES(name) rsb_u128_##name
#else
#define BYTES(name) CALL(name)
#endif

/* ---- The format, written again. */

static size_t put_number(unsigned char *bytes, size_t length, number n) {
    while (n >= 128) {
        bytes[length++] = (unsigned char)(128 + n % 128);
        n /= 128;
    }
    bytes[length++] = (unsigned char)n;
    return length;
}

/* Writes the runs of a set, one by one. */
static size_t written(unsigned char *bytes, const set_t *set) {
    static const unsigned char header[] = {0xF5, 'R', 'S', 'B', 1, WIDTH};
    memcpy(bytes, header, sizeof header);
    size_t length = put_number(bytes, sizeof header, (number)CALL(run_count)(set));
    run_t run;
    number from = 0;
    for (bool more = CALL(next_run)(set, 0, &run); more; more = CALL(run_after)(set, run.first, &run)) {
        length = put_number(bytes, length, run.first - from);
        length = put_number(bytes, length, run.last - run.first);
        from = run.last + 1;
    }
    return length;
}

/* What the reader that is written again found. */
typedef struct reading {
    size_t place;
    uint32_t reason; /* 0 if the bytes are those of a set */
} reading;

typedef struct source {
    const unsigned char *bytes;
    size_t length, place;
    uint32_t reason;
} source;

/* Wide enough that no sum here wraps. */
__extension__ typedef unsigned __int128 wide;

/* The next number, from `least` to `most`. It is wrong at the first byte that no such number has. */
static wide number_of(source *from, wide least, wide most) {
    wide n = 0;
    for (unsigned shift = 0;; shift += 7) {
        if (from->place == from->length) {
            from->reason = RSB_CUT_SHORT;
            return 0;
        }
        wide byte = from->bytes[from->place];
        /* The least number that goes on with this byte. */
        if (shift > 126 || byte > (most - n) >> shift) {
            from->reason = RSB_PAST_GREATEST;
            return 0;
        }
        if (byte == 0 && (shift > 0 || least > 0)) {
            from->reason = shift > 0 ? RSB_NOT_SHORTEST : RSB_TOUCHING;
            return 0;
        }
        from->place++;
        n += (byte & 127) << shift;
        if (byte < 128) {
            return n;
        }
    }
}

static reading read_again(const unsigned char *bytes, size_t length) {
    static const unsigned char header[] = {0xF5, 'R', 'S', 'B', 1, WIDTH};
    static const uint32_t reasons[] = {RSB_NOT_MAGIC, RSB_NOT_MAGIC, RSB_NOT_MAGIC, RSB_NOT_MAGIC, RSB_OTHER_VERSION, RSB_OTHER_WIDTH};
    for (size_t i = 0; i < sizeof header; i++) {
        if (i == length || bytes[i] != header[i]) {
            return (reading){i, i == length ? RSB_CUT_SHORT : reasons[i]};
        }
    }
    source from = {bytes, length, sizeof header, 0};
    wide greatest = GREATEST, most = greatest / 2 + 1, next = 0;
    wide count = number_of(&from, 0, most > UINT64_MAX ? UINT64_MAX : most);
    for (wide i = 0; i < count && !from.reason; i++) {
        wide reach = greatest - 2 * (count - 1 - i);
        wide first = next + number_of(&from, i > 0, reach - next);
        if (!from.reason) {
            next = first + number_of(&from, 0, reach - first) + 1;
        }
    }
    if (!from.reason && from.place < length) {
        from.reason = RSB_TOO_LONG;
    }
    return (reading){from.place, from.reason};
}

/* ---- The library beside it. */

static unsigned char bytes[LONGEST], stored_bytes[LONGEST];

/* Reads bytes, and compares the answer with that of the other reader. Bytes that are read are written again. */
static void read_both(set_t *out, const unsigned char *these, size_t length) {
    reading wanted = read_again(these, length);
    size_t place = 7;
    uint32_t reason = 7;
    long before = asked;
    uint32_t answer = BYTES(from_bytes)(out, length > 0 ? these : NULL, length, &place, &reason);
    if (answer == RSB_NO_MEMORY) {
        CHECK(refused_at > before && refused_at <= asked && place == 7 && reason == 7);
        return;
    }
    if (wanted.reason != 0) {
        CHECK(answer == RSB_BAD_BYTES && place == wanted.place && reason == wanted.reason);
        return;
    }
    CHECK(answer == RSB_CHANGED && place == 7 && reason == 7);
    CHECK(written(stored_bytes, out) == length && !memcmp(stored_bytes, these, length));
}

/* Writes a set, into less room than it takes, and into all that there is. */
static size_t wrote(const set_t *set, const table *bits) {
    size_t length = written(bytes, set);
    memset(stored_bytes, '*', sizeof stored_bytes);
    for (size_t room = 0; room <= sizeof stored_bytes; room = room < length ? length - (length - room) / 2 : sizeof stored_bytes + 1) {
        size_t needed = 7;
        long before = asked;
        uint32_t answer = BYTES(to_bytes)(set, room > 0 ? stored_bytes : NULL, room, &needed);
        if (answer == RSB_NO_MEMORY) {
            CHECK(refused_at > before && refused_at <= asked && needed == 7);
        } else {
            CHECK(answer == (room < length ? RSB_NO_ROOM : RSB_CHANGED) && needed == length);
        }
        size_t stored = answer == RSB_CHANGED ? length : 0;
        CHECK(!memcmp(stored_bytes, bytes, stored));
        for (size_t i = stored; i < sizeof stored_bytes; i++) {
            CHECK(stored_bytes[i] == '*');
        }
        memset(stored_bytes, '*', sizeof stored_bytes);
        if (room == length) {
            break;
        }
    }
    same(set, bits);
    return length;
}

/* Changes a byte or two, cuts the bytes short, adds one, or draws all that follow the header. */
static size_t mutated(unsigned char *these, size_t length) {
    static const unsigned char likely[] = {0, 1, 127, 128, 129, 255};
    for (size_t changes = 1 + drawn(2); changes > 0; changes--) {
        size_t at_byte = (size_t)drawn(length);
        these[at_byte] = drawn(2) ? likely[drawn(sizeof likely)] : (unsigned char)drawn(256);
    }
    switch (drawn(6)) {
    case 0:
        return (size_t)drawn(length + 1);
    case 1:
        these[length] = (unsigned char)drawn(256);
        return length + 1;
    case 2:
        for (size_t i = 6; i < length; i++) {
            these[i] = (unsigned char)drawn(256);
        }
        return length;
    default:
        return length;
    }
}

/* One round, and how many allocations it asked for. */
static long round_of(unsigned long long start, long refused) {
    seed = start;
    refused_at = refused;
    asked = 0;
    base = drawn_base();
    set_t a = RSB_EMPTY, b = RSB_EMPTY, c = RSB_EMPTY;
    table ta = {{false}}, tb = {{false}}, tc = {{false}};
    filled(&b, &tb, (size_t)drawn(STEPS));
    filled(&c, &tc, (size_t)drawn(STEPS));
    combined((size_t)drawn(COMBINATIONS), &a, &ta, &b, &tb, &c, &tc);
    changed_by(&a, &ta, &c, &tc);
    compared_with(&a, &ta, &b, &tb);
    size_t length = wrote(&a, &ta);
    read_both(&b, bytes, length);
    for (size_t i = 0; i < MUTATIONS; i++) {
        unsigned char other[LONGEST];
        memcpy(other, bytes, length);
        read_both(&b, other, mutated(other, length));
    }
    CALL(free)(&a);
    CALL(free)(&b);
    CALL(free)(&c);
    CHECK(held == 0);
    return asked;
}

/* The rows of docs/FORMAT.md that are about this width, and counts that announce what is not there. */
static void rows(void) {
    static const struct {
        size_t length;
        unsigned char bytes[24];
        size_t place;
        uint32_t reason;
    } table_of[] = {
        {0, {0}, 0, RSB_CUT_SHORT},
        {4, {0xF5, 'R', 'S', 10}, 3, RSB_NOT_MAGIC},
        {5, {0xF5, 'R', 'S', 'B', 2}, 4, RSB_OTHER_VERSION},
        {7, {0xF5, 'R', 'S', 'B', 1, WIDTH == 128 ? 64 : 128, 0}, 5, RSB_OTHER_WIDTH},
        {6, {0xF5, 'R', 'S', 'B', 1, WIDTH}, 6, RSB_CUT_SHORT},
        {8, {0xF5, 'R', 'S', 'B', 1, WIDTH, 128, 0}, 7, RSB_NOT_SHORTEST},
        {10, {0xF5, 'R', 'S', 'B', 1, WIDTH, 2, 3, 4, 0}, 9, RSB_TOUCHING},
        {9, {0xF5, 'R', 'S', 'B', 1, WIDTH, 1, 200, 1}, 9, RSB_CUT_SHORT},
        {8, {0xF5, 'R', 'S', 'B', 1, WIDTH, 0, 0}, 7, RSB_TOO_LONG},
        {13, {0xF5, 'R', 'S', 'B', 1, WIDTH, 255, 255, 255, 255, 7, 0, 0}, 13, RSB_CUT_SHORT},
        {18, {0xF5, 'R', 'S', 'B', 1, WIDTH, 255, 255, 255, 255, 255, 255, 255, 255, 255, 2, 0, 0},
            WIDTH == 64 ? 14 : WIDTH == 32 ? 10 : 15, RSB_PAST_GREATEST},
    };
    for (size_t i = 0; i < sizeof table_of / sizeof *table_of; i++) {
        set_t out = RSB_EMPTY;
        size_t place = 7;
        uint32_t reason = 7;
        long before = asked;
        reading wanted = read_again(table_of[i].bytes, table_of[i].length);
        CHECK(BYTES(from_bytes)(&out, table_of[i].bytes, table_of[i].length, &place, &reason) == RSB_BAD_BYTES);
        CHECK(place == wanted.place && reason == wanted.reason);
        CHECK(place == table_of[i].place && reason == table_of[i].reason);
        CHECK(asked - before < 3 && CALL(is_empty)(&out));
    }
}

/* Tens of thousands of runs, and a count that announces as many but brings none. */
static void many(void) {
    set_t a = RSB_EMPTY, b = RSB_EMPTY;
    for (number i = 0; i < TENS_OF_THOUSANDS; i++) {
        CHECK(CALL(insert_range)(&a, 300 * i, 300 * i + i % 7) == RSB_CHANGED);
    }
    size_t needed = 0, place = 7;
    uint32_t reason = 7;
    CHECK(BYTES(to_bytes)(&a, NULL, 0, &needed) == RSB_NO_ROOM);
    unsigned char *all = malloc(needed), *again = malloc(needed);
    CHECK(all != NULL && again != NULL);
    CHECK(BYTES(to_bytes)(&a, all, needed, &needed) == RSB_CHANGED && written(again, &a) == needed && !memcmp(all, again, needed));
    CHECK(BYTES(from_bytes)(&b, all, needed, &place, &reason) == RSB_CHANGED && CALL(equal)(&a, &b));
    CHECK(BYTES(from_bytes)(&b, all, needed - 1, &place, &reason) == RSB_BAD_BYTES && place == needed - 1 && reason == RSB_CUT_SHORT);
    CHECK(CALL(equal)(&a, &b));
    free(all);
    free(again);
    CALL(free)(&a);
    CALL(free)(&b);
}

int main(void) {
    unsigned long long mutations = 0;
    rows();
    many();
    for (unsigned long long start = 1; start <= ROUNDS; start++) {
        long most = round_of(start * 0x9E3779B97F4A7C15ULL, 0);
        mutations += MUTATIONS;
        for (long refused = 1; start <= 15 && refused <= most; refused++) {
            round_of(start * 0x9E3779B97F4A7C15ULL, refused);
        }
    }
    CHECK(held == 0);
    printf("u%d: bytes of %d sets and %llu mutations read as FORMAT.md says, with %llu allocations refused\n", WIDTH, (int)ROUNDS,
        mutations, refusals);
    return 0;
}
