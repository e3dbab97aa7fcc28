/* What the tests of the calls share: allocations that are refused, and tables of bits beside sets. Each allocation of a round
 * is refused in turn.
 *
 * A test is compiled once for each kind of number (kinds.h), with -Wl,--wrap=malloc -Wl,--wrap=realloc -Wl,--wrap=free. */
#ifndef TABLES_H
#define TABLES_H

#include "kinds.h"

#include <stdio.h>
#include <stdlib.h>
#include <string.h>

/* The values from BASE on are looked at, TABLE of them. Many rounds begin at the least value of the type, or end at the
 * greatest one. */
enum { TABLE = 96, STEPS = 60, PLACES = 4 };

static number base;
static unsigned long long refusals;

#define CHECK(claim)                                                                                    \
    do {                                                                                                \
        if (!(claim)) {                                                                                 \
            fprintf(stderr, "%s:%d: " SIGN "%d, allocation %ld refused: not so: %s\n", __FILE__, __LINE__, \
                WIDTH, refused_at, #claim);                                                             \
            exit(1);                                                                                    \
        }                                                                                               \
    } while (0)

/* ---- Refusals. */

void *__real_malloc(size_t size);
void *__real_realloc(void *at, size_t size);
void __real_free(void *at);

static long refused_at; /* the allocation that is refused, from 1 on, or 0 */
static long asked;
static long held; /* blocks that were given and not given back */

static bool is_refused(void) {
    asked++;
    if (asked != refused_at) {
        return false;
    }
    refusals++;
    return true;
}

void *__wrap_malloc(size_t size) {
    void *at = is_refused() ? NULL : __real_malloc(size);
    held += at != NULL;
    return at;
}

void *__wrap_realloc(void *at, size_t size) {
    void *next = is_refused() ? NULL : __real_realloc(at, size);
    held += at == NULL && next != NULL;
    return next;
}

void __wrap_free(void *at) {
    held -= at != NULL;
    __real_free(at);
}

/* What a call answers: RSB_NO_MEMORY only where an allocation of its own was refused, and RSB_UNCHANGED only where it asked
 * for none. */
static uint32_t told(uint32_t answer, long before) {
    CHECK(answer <= RSB_NO_MEMORY);
    CHECK(answer != RSB_NO_MEMORY || (refused_at > before && refused_at <= asked));
    CHECK(answer != RSB_UNCHANGED || asked == before);
    return answer;
}

/* ---- Tables of bits. */

typedef struct table {
    bool has[TABLE];
} table;

static unsigned long long seed;

static unsigned long long drawn(unsigned long long below) {
    seed ^= seed << 13;
    seed ^= seed >> 7;
    seed ^= seed << 17;
    return seed % below;
}

static number at(size_t place) {
    return base + (number)place;
}

/* The place of a value that is not below BASE. */
static size_t place_of(number value) {
    plain place = (plain)value - (plain)base;
    CHECK(value >= base && place < TABLE);
    return (size_t)place;
}

/* Where the table of a round begins. */
static number drawn_base(void) {
    switch (drawn(4)) {
    case 0:
        return LEAST;
    case 1:
        return GREATEST - (TABLE - 1);
    case 2:
        return (number)drawn(1000);
    default:
        return LEAST + (number)(~(plain)0 / 2) - (number)drawn(TABLE);
    }
}

/* -1, 0 or 1, as the ascending lists of members compare. */
static int compared(const table *left, const table *right) {
    size_t a = 0, b = 0;
    for (;;) {
        while (a < TABLE && !left->has[a]) {
            a++;
        }
        while (b < TABLE && !right->has[b]) {
            b++;
        }
        if (a == TABLE || b == TABLE) {
            return (b == TABLE) - (a == TABLE);
        }
        if (a != b) {
            return a < b ? -1 : 1;
        }
        a++;
        b++;
    }
}

/* What the values from one place to another have: none if the last place is below the first. */
static void windowed(const set_t *set, const table *bits, size_t first, size_t last) {
    size_t members = 0, values = 0;
    for (size_t place = first; place <= last; place++) {
        members += bits->has[place];
        values++;
    }
    CHECK(CALL(contains_range)(set, at(first), at(last)) == (members == values));
    CHECK(CALL(is_disjoint_range)(set, at(first), at(last)) == (members == 0));
    CHECK(counted(CALL(len_in)(set, at(first), at(last))) == members);
}

/* Each member by its number, and the number of each. */
static void ranked(const set_t *set, const table *bits) {
    unsigned long long below = 0;
    number value;
    for (size_t place = 0; place < TABLE; place++) {
        CHECK(counted(CALL(rank)(set, at(place))) == below);
        if (bits->has[place]) {
            CHECK(CALL(nth)(set, below, &value) && value == at(place));
            below++;
        }
    }
    value = 7;
    CHECK(!CALL(nth)(set, below, &value) && !CALL(nth)(set, UINT64_MAX, &value) && value == 7);
}

/* A call found the run that has a place, or, if the place is TABLE, none. */
static void found(bool is, run_t run, const table *bits, size_t place) {
    CHECK(is == (place < TABLE));
    if (!is) {
        CHECK(run.first == 3 && run.last == 2);
        return;
    }
    size_t first = place, last = place;
    while (first > 0 && bits->has[first - 1]) {
        first--;
    }
    while (last + 1 < TABLE && bits->has[last + 1]) {
        last++;
    }
    CHECK(run.first == at(first) && run.last == at(last));
}

/* The runs next to a place. */
static void beside(const set_t *set, const table *bits, size_t place) {
    size_t next = TABLE, prev = TABLE, after = TABLE, before = TABLE;
    for (size_t other = TABLE; other-- > place;) {
        next = bits->has[other] ? other : next;
        after = other > place && bits->has[other] && !bits->has[other - 1] ? other : after;
    }
    for (size_t other = 0; other <= place; other++) {
        prev = bits->has[other] ? other : prev;
        before = other < place && bits->has[other] && !bits->has[other + 1] ? other : before;
    }
    run_t run = {3, 2};
    found(CALL(next_run)(set, at(place), &run), run, bits, next);
    run = (run_t){3, 2};
    found(CALL(prev_run)(set, at(place), &run), run, bits, prev);
    run = (run_t){3, 2};
    found(CALL(run_after)(set, at(place), &run), run, bits, after);
    run = (run_t){3, 2};
    found(CALL(run_before)(set, at(place), &run), run, bits, before);
}

/* Stores the gap that has a place, or otherwise the first after it. The last one reaches to the greatest value. */
static bool gap_from_place(const table *bits, size_t place, run_t *gap) {
    while (place < TABLE && bits->has[place]) {
        place++;
    }
    if (place == TABLE && at(TABLE - 1) == GREATEST) {
        return false;
    }
    size_t first = place, last = place;
    while (first > 0 && !bits->has[first - 1]) {
        first--;
    }
    while (last < TABLE && !bits->has[last]) {
        last++;
    }
    *gap = (run_t){first > 0 ? at(first) : LEAST, last < TABLE ? at(last - 1) : GREATEST};
    return true;
}

/* Stores the gap that has a place, or otherwise the last before it. The first one reaches to the least value. */
static bool gap_to_place(const table *bits, size_t place, run_t *gap) {
    for (size_t past = place + 1; past > 0; past--) {
        if (!bits->has[past - 1]) {
            return gap_from_place(bits, past - 1, gap);
        }
    }
    if (base == LEAST) {
        return false;
    }
    *gap = (run_t){LEAST, base - 1};
    return true;
}

/* A call found a gap, or none. */
static void found_gap(bool is, run_t gap, bool wanted, run_t wanted_gap) {
    CHECK(is == wanted);
    CHECK(gap.first == wanted_gap.first && gap.last == wanted_gap.last);
}

/* The gaps next to a place. */
static void gaps_beside(const set_t *set, const table *bits, size_t place) {
    const run_t none = {3, 2};
    size_t next = place, past = place + 1;
    while (next < TABLE && !bits->has[next]) {
        next++;
    }
    while (past > 0 && !bits->has[past - 1]) {
        past--;
    }
    run_t gap = none, wanted = none;
    bool is = gap_from_place(bits, place, &wanted);
    found_gap(CALL(next_gap)(set, at(place), &gap), gap, is, wanted);
    gap = wanted = none;
    is = gap_to_place(bits, place, &wanted);
    found_gap(CALL(prev_gap)(set, at(place), &gap), gap, is, wanted);
    gap = wanted = none;
    is = next < TABLE && gap_from_place(bits, next, &wanted);
    found_gap(CALL(gap_after)(set, at(place), &gap), gap, is, wanted);
    gap = wanted = none;
    is = past > 0 && gap_to_place(bits, past - 1, &wanted);
    found_gap(CALL(gap_before)(set, at(place), &gap), gap, is, wanted);
}

/* A walk over the gaps, and one back. With the runs, the gaps have each value once. */
static void walked_over_gaps(const set_t *set, unsigned long long runs) {
    run_t gap = {3, 2};
    unsigned long long steps = 0, inner = runs > 0 ? runs - 1 : 0;
    unsigned long long wanted = runs == 0 ? 1 : inner + !CALL(contains)(set, LEAST) + !CALL(contains)(set, GREATEST);
    number past = LEAST;
    for (bool more = CALL(next_gap)(set, LEAST, &gap); more; more = CALL(gap_after)(set, gap.last, &gap)) {
        CHECK(gap.first <= gap.last && CALL(is_disjoint_range)(set, gap.first, gap.last));
        CHECK(gap.first == past || CALL(contains_range)(set, past, gap.first - 1));
        past = gap.last < GREATEST ? gap.last + 1 : LEAST;
        steps++;
    }
    CHECK(steps == wanted);
    for (bool more = CALL(prev_gap)(set, GREATEST, &gap); more; more = CALL(gap_before)(set, gap.first, &gap)) {
        CHECK(gap.first <= gap.last && CALL(is_disjoint_range)(set, gap.first, gap.last));
        steps--;
    }
    CHECK(steps == 0);
}

/* The first gap from a place on that is long enough. The last one reaches to the greatest value. */
static void gap_from(const set_t *set, const table *bits, size_t from, plain len) {
    run_t gap = {3, 2};
    bool is = CALL(first_gap)(set, at(from), len, &gap);
    for (size_t first = from, past;; first = past) {
        while (first < TABLE && bits->has[first]) {
            first++;
        }
        if (first == TABLE && at(TABLE - 1) == GREATEST) {
            CHECK(!is && gap.first == 3 && gap.last == 2);
            return;
        }
        for (past = first; past < TABLE && !bits->has[past];) {
            past++;
        }
        number last = past < TABLE ? at(past - 1) : GREATEST;
        if ((plain)last - (plain)at(first) >= len - 1) {
            CHECK(is && gap.first == at(first) && gap.last == last);
            return;
        }
    }
}

/* The first run from a place on that is long enough. */
static void run_from(const set_t *set, const table *bits, size_t from, plain len) {
    run_t run = {3, 2};
    bool is = CALL(first_run_of)(set, at(from), len, &run);
    for (size_t first = from, past;; first = past) {
        while (first < TABLE && !bits->has[first]) {
            first++;
        }
        if (first == TABLE) {
            CHECK(!is && run.first == 3 && run.last == 2);
            return;
        }
        for (past = first; past < TABLE && bits->has[past];) {
            past++;
        }
        if (past - first >= len) {
            CHECK(is && run.first == at(first) && run.last == at(past - 1));
            return;
        }
    }
}

/* A walk over the runs, and one back. */
static void walked(const set_t *set, const table *bits, unsigned long long runs) {
    table there = {{false}}, back = {{false}};
    run_t run = {3, 2};
    unsigned long long steps = 0;
    for (bool more = CALL(next_run)(set, LEAST, &run); more; more = CALL(run_after)(set, run.last, &run)) {
        size_t first = place_of(run.first), last = place_of(run.last);
        CHECK(first <= last);
        memset(there.has + first, true, last - first + 1);
        steps++;
    }
    CHECK(steps == runs && !memcmp(&there, bits, sizeof there));
    for (bool more = CALL(prev_run)(set, GREATEST, &run); more; more = CALL(run_before)(set, run.first, &run)) {
        size_t first = place_of(run.first), last = place_of(run.last);
        CHECK(first <= last);
        memset(back.has + first, true, last - first + 1);
        steps--;
    }
    CHECK(steps == 0 && !memcmp(&back, bits, sizeof back));
}

/* What an array of `most` runs gets of the runs from one place to another: none if the last place is below the first. */
static void stored(const set_t *set, const table *bits, size_t first, size_t last, size_t most) {
    run_t runs[TABLE];
    for (size_t i = 0; i < TABLE; i++) {
        runs[i] = (run_t){3, 2};
    }
    size_t count = CALL(runs_in)(set, at(first), at(last), most > 0 ? runs : NULL, most), wanted = 0;
    for (size_t place = first; place <= last && wanted < most; place++) {
        size_t start = place;
        if (!bits->has[place]) {
            continue;
        }
        while (place < last && bits->has[place + 1]) {
            place++;
        }
        CHECK(runs[wanted].first == at(start) && runs[wanted].last == at(place));
        wanted++;
    }
    CHECK(count == wanted);
    for (size_t i = count; i < TABLE; i++) {
        CHECK(runs[i].first == 3 && runs[i].last == 2);
    }
}

/* A walk by arrays of `most` runs. */
static void walked_by(const set_t *set, const table *bits, size_t most, unsigned long long runs) {
    table there = {{false}};
    run_t block[TABLE];
    unsigned long long steps = 0;
    number next = LEAST;
    for (bool more = true; more;) {
        size_t count = CALL(runs_in)(set, next, GREATEST, block, most);
        CHECK(count <= most);
        for (size_t i = 0; i < count; i++) {
            size_t first = place_of(block[i].first), last = place_of(block[i].last);
            CHECK(first <= last);
            memset(there.has + first, true, last - first + 1);
        }
        steps += count;
        more = count == most && block[most - 1].last < GREATEST;
        next = more ? block[most - 1].last + 1 : LEAST;
    }
    CHECK(steps == runs && !memcmp(&there, bits, sizeof there));
}

/* A set has the members of its table, by each call that reads one set. */
static void same(const set_t *set, const table *bits) {
    long before = asked;
    unsigned long long members = 0, runs = 0;
    size_t least = TABLE, greatest = TABLE;
    for (size_t place = 0; place < TABLE; place++) {
        CHECK(CALL(contains)(set, at(place)) == bits->has[place]);
        if (!bits->has[place]) {
            continue;
        }
        members++;
        runs += place == 0 || !bits->has[place - 1];
        least = least == TABLE ? place : least;
        greatest = place;
    }
    CHECK(counted(CALL(len)(set)) == members);
    CHECK(CALL(run_count)(set) == runs);

    number value = 7;
    CHECK(CALL(first)(set, &value) == (least < TABLE));
    CHECK(value == (least < TABLE ? at(least) : 7));
    value = 7;
    CHECK(CALL(last)(set, &value) == (greatest < TABLE));
    CHECK(value == (greatest < TABLE ? at(greatest) : 7));

    CHECK(CALL(is_empty)(set) == (members == 0));
    run_t run = {3, 2};
    found(CALL(first_run)(set, &run), run, bits, least);
    run = (run_t){3, 2};
    found(CALL(last_run)(set, &run), run, bits, greatest);

    for (size_t place = 0; place < TABLE; place++) {
        bool member = bits->has[place];
        size_t first = place, last = place;
        while (first > 0 && bits->has[first - 1] == member) {
            first--;
        }
        while (last + 1 < TABLE && bits->has[last + 1] == member) {
            last++;
        }
        run_t block = {3, 2};
        CHECK(CALL(run_or_gap)(set, at(place), &block) == member);
        CHECK(block.first == (!member && first == 0 ? LEAST : at(first)));
        CHECK(block.last == (!member && last == TABLE - 1 ? GREATEST : at(last)));
    }

    walked(set, bits, runs);
    walked_by(set, bits, 1 + drawn(TABLE), runs);
    walked_over_gaps(set, runs);
    ranked(set, bits);
    for (int i = 0; i < PLACES; i++) {
        size_t place = drawn(TABLE);
        windowed(set, bits, place, drawn(TABLE));
        stored(set, bits, place, drawn(TABLE), drawn(8));
        beside(set, bits, place);
        gaps_beside(set, bits, place);
        gap_from(set, bits, place, (plain)(1 + drawn(8)));
        run_from(set, bits, place, (plain)drawn(8));
    }
    CHECK(asked == before);
}

/* ---- Calls that change a set. */

static void change(set_t *set, table *bits) {
    size_t first = drawn(TABLE), last = first + drawn(12);
    last = last < TABLE ? last : TABLE - 1;
    long before = asked;
    uint32_t answer;
    table next = *bits;
    switch (drawn(12)) {
    case 0:
    case 1:
        answer = CALL(remove)(set, at(first));
        next.has[first] = false;
        break;
    case 2:
        answer = CALL(insert)(set, at(first));
        next.has[first] = true;
        break;
    case 3:
        /* A range that ends before it starts has no value. */
        answer = first > 0 ? CALL(insert_range)(set, at(first), at(first - 1)) : RSB_UNCHANGED;
        CHECK(answer != RSB_CHANGED);
        break;
    case 4:
    case 5:
    case 6:
        answer = CALL(remove_range)(set, at(first), at(last));
        memset(next.has + first, false, last - first + 1);
        CHECK(asked == before || (last + 1 < TABLE && bits->has[last + 1]));
        break;
    case 7:
        answer = first > 0 ? CALL(remove_range)(set, at(first), at(first - 1)) : RSB_UNCHANGED;
        CHECK(answer == RSB_UNCHANGED);
        break;
    default:
        answer = CALL(insert_range)(set, at(first), at(last));
        memset(next.has + first, true, last - first + 1);
        break;
    }
    if (told(answer, before) != RSB_NO_MEMORY) {
        CHECK(answer == (memcmp(&next, bits, sizeof next) ? RSB_CHANGED : RSB_UNCHANGED));
        *bits = next;
    }
    same(set, bits);
}

static void filled(set_t *set, table *bits, size_t steps) {
    while (steps-- > 0) {
        change(set, bits);
    }
}

/* ---- Calls of two sets. */

typedef uint32_t combination(set_t *out, const set_t *left, const set_t *right);

static bool either(bool left, bool right) {
    return left || right;
}

static bool both(bool left, bool right) {
    return left && right;
}

static bool left_alone(bool left, bool right) {
    return left && !right;
}

static bool one_alone(bool left, bool right) {
    return left != right;
}

static const struct {
    combination *call;
    bool (*has)(bool left, bool right);
} combinations[] = {
    {CALL(union), either},
    {CALL(intersection), both},
    {CALL(difference), left_alone},
    {CALL(symmetric_difference), one_alone},
};

enum { COMBINATIONS = sizeof combinations / sizeof *combinations };

static void combined(
    size_t kind, set_t *out, table *made, const set_t *left, const table *l, const set_t *right, const table *r) {
    long before = asked;
    uint32_t answer = told(combinations[kind].call(out, left, right), before);
    CHECK(answer != RSB_UNCHANGED);
    for (size_t place = 0; answer == RSB_CHANGED && place < TABLE; place++) {
        made->has[place] = combinations[kind].has(l->has[place], r->has[place]);
    }
    same(out, made);
    same(left, l);
    same(right, r);
}

static const struct {
    uint32_t (*call)(set_t *set, const set_t *other);
    bool (*has)(bool left, bool right);
} changes[] = {
    {CALL(union_with), either},
    {CALL(intersect_with), both},
    {CALL(subtract), left_alone},
    {CALL(xor_with), one_alone},
};

static void changed_by(set_t *set, table *bits, const set_t *other, const table *o) {
    for (size_t kind = 0; kind < sizeof changes / sizeof *changes; kind++) {
        filled(set, bits, drawn(STEPS / 4));
        table next = *bits;
        for (size_t place = 0; place < TABLE; place++) {
            next.has[place] = changes[kind].has(bits->has[place], o->has[place]);
        }
        long before = asked;
        uint32_t answer = told(changes[kind].call(set, other), before);
        if (answer != RSB_NO_MEMORY) {
            CHECK(answer == (memcmp(&next, bits, sizeof next) ? RSB_CHANGED : RSB_UNCHANGED));
            *bits = next;
        }
        same(set, bits);
        same(other, o);
    }
}

static void compared_with(const set_t *left, const table *l, const set_t *right, const table *r) {
    long before = asked;
    bool subset = true, disjoint = true;
    for (size_t place = 0; place < TABLE; place++) {
        subset = subset && (!l->has[place] || r->has[place]);
        disjoint = disjoint && !(l->has[place] && r->has[place]);
    }
    CHECK(CALL(equal)(left, right) == !memcmp(l, r, sizeof *l));
    CHECK(CALL(order)(left, right) == compared(l, r));
    CHECK(CALL(is_subset)(left, right) == subset);
    CHECK(CALL(is_disjoint)(left, right) == disjoint);
    CHECK(asked == before);
    same(left, l);
    same(right, r);
}

#endif
