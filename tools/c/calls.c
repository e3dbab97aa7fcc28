/* Calls each function of one width, and compares what it answers with a table of bits. several.c has the calls on sets that may
 * be the same, and on many sets. */
#include "tables.h"

enum { ROUNDS = 400 };

/* A complement reaches to the ends of the type, so it is asked value by value, and complemented again. */
static void complemented(set_t *out, set_t *again, const set_t *set, const table *bits) {
    long before = asked;
    uint32_t answer = told(CALL(complement)(out, set), before);
    same(set, bits);
    if (answer == RSB_NO_MEMORY) {
        return;
    }
    CHECK(answer == RSB_CHANGED);
    for (size_t place = 0; place < TABLE; place++) {
        CHECK(CALL(contains)(out, at(place)) == !bits->has[place]);
    }
    CHECK(CALL(is_disjoint)(out, set));
    before = asked;
    if (told(CALL(complement)(again, out), before) == RSB_CHANGED) {
        same(again, bits);
    }
}

/* ---- Arrays of runs, and text. */

/* Sets `out` to what some runs have. They overlap, come in any order, and may end before they start. */
static void gathered(set_t *out, table *made) {
    enum { MOST = 12 };
    run_t runs[MOST];
    table next = {{false}};
    size_t count = drawn(MOST + 1);
    for (size_t i = 0; i < count; i++) {
        size_t first = drawn(TABLE), last = first + drawn(9);
        last = last < TABLE ? last : TABLE - 1;
        last = first > 0 && drawn(6) == 0 ? first - 1 : last;
        runs[i] = (run_t){at(first), at(last)};
        for (size_t place = first; place <= last; place++) {
            next.has[place] = true;
        }
    }
    long before = asked;
    uint32_t answer = told(CALL(from_runs)(out, count > 0 ? runs : NULL, count), before);
    CHECK(answer != RSB_UNCHANGED);
    *made = answer == RSB_CHANGED ? next : *made;
    same(out, made);
}

enum { LONGEST = TABLE * 96 };

/* Writes the text of a table, and returns its length. If `brief`, a single value is one number. */
static size_t spelled(char *text, const table *bits, bool brief) {
    size_t length = 0;
    for (size_t place = 0; place < TABLE; place++) {
        size_t last = place;
        while (bits->has[place] && last + 1 < TABLE && bits->has[last + 1]) {
            last++;
        }
        if (bits->has[place]) {
            length += (size_t)sprintf(text + length, "%s", length > 0 ? ", " : "");
            length += write_number(text + length, at(place));
        }
        if (bits->has[place] && !(brief && last == place)) {
            length += (size_t)sprintf(text + length, "..=");
            length += write_number(text + length, at(last));
        }
        place = last;
    }
    return length;
}

/* The text with single values as numbers, into a buffer that is too short for it, and into one that is just long enough. */
static void told_by_short_text(const set_t *set, const table *bits) {
    static char wanted[LONGEST], text[LONGEST];
    size_t length = spelled(wanted, bits, true), found = 7;
    long before = asked;
    memset(text, '*', sizeof text);
    if (length > 0) {
        CHECK(CALL(to_short_text)(set, length > 1 ? text : NULL, length - 1, &found) == RSB_NO_ROOM && found == length);
        for (size_t i = 0; i < sizeof text; i++) {
            CHECK(text[i] == '*');
        }
    }
    found = 7;
    CHECK(CALL(to_short_text)(set, length > 0 ? text : NULL, length, &found) == RSB_CHANGED && found == length);
    CHECK(asked == before && !memcmp(text, wanted, length));
    for (size_t i = length; i < sizeof text; i++) {
        CHECK(text[i] == '*');
    }
    set_t again = RSB_EMPTY;
    before = asked;
    if (told(CALL(from_text)(&again, wanted, length), before) == RSB_CHANGED) {
        same(&again, bits);
    }
    CALL(free)(&again);
}

/* The text of a set, into a buffer that is too short for it, and into one that is just long enough. `out` is then read from it. */
static void told_by_text(set_t *out, table *made, const set_t *set, const table *bits) {
    static char wanted[LONGEST], text[LONGEST];
    size_t length = spelled(wanted, bits, false), found = 7;
    memset(text, '*', sizeof text);
    if (length > 0) {
        long before = asked;
        uint32_t answer = CALL(to_text)(set, length > 1 ? text : NULL, length - 1, &found);
        CHECK(answer == (refused_at > before && refused_at <= asked ? RSB_NO_MEMORY : RSB_NO_ROOM));
        CHECK(found == (answer == RSB_NO_ROOM ? length : 7));
        for (size_t i = 0; i < sizeof text; i++) {
            CHECK(text[i] == '*');
        }
    }
    found = 7;
    long before = asked;
    uint32_t answer = told(CALL(to_text)(set, length > 0 ? text : NULL, length, &found), before);
    CHECK(answer != RSB_UNCHANGED && found == (answer == RSB_CHANGED ? length : 7));
    CHECK(answer != RSB_CHANGED || !memcmp(text, wanted, length));
    for (size_t i = answer == RSB_CHANGED ? length : 0; i < sizeof text; i++) {
        CHECK(text[i] == '*');
    }
    same(set, bits);

    before = asked;
    answer = told(CALL(from_text)(out, length > 0 ? wanted : NULL, length), before);
    CHECK(answer != RSB_UNCHANGED);
    *made = answer == RSB_CHANGED ? *bits : *made;
    same(out, made);
}

/* Text that does not list ranges leaves the set as it was, and is reported with the place where it goes wrong. */
static void told_by_no_text(set_t *out, const table *made) {
    static const struct {
        const char *text;
        size_t at;
    } rows[] = {{"1..=", 4}, {"1..2", 3}, {"1,", 2}, {",", 0}, {"x", 0}, {"1 2", 2}, {"\xff", 0}, {"1..=2\xc3", 5}, {"1,,2", 2},
        {"3, 4x, \xff", 4}, {"--1", 1}, {"+", 1}, {" 1 . 2", 4}, {"1..= ,", 5}};
    for (size_t i = 0; i < sizeof rows / sizeof *rows; i++) {
        size_t place = 7;
        long before = asked;
        uint32_t answer = CALL(from_text)(out, rows[i].text, strlen(rows[i].text));
        CHECK(answer == (refused_at > before && refused_at <= asked ? RSB_NO_MEMORY : RSB_BAD_TEXT));
        same(out, made);
        before = asked;
        answer = CALL(from_text_at)(out, rows[i].text, strlen(rows[i].text), &place);
        CHECK(answer == (refused_at > before && refused_at <= asked ? RSB_NO_MEMORY : RSB_BAD_TEXT));
        CHECK(place == (answer == RSB_BAD_TEXT ? rows[i].at : 7));
        same(out, made);
    }
}

/* One round, and how many allocations it asked for. */
static long round_of(unsigned long long start, long refused) {
    seed = start;
    refused_at = refused;
    asked = 0;
    base = drawn_base();
    set_t a = RSB_EMPTY, b = RSB_EMPTY, c = RSB_EMPTY, d = RSB_EMPTY;
    table ta = {{false}}, tb = {{false}}, tc = {{false}}, td = {{false}};
    same(&a, &ta);
    filled(&a, &ta, drawn(STEPS));
    filled(&b, &tb, drawn(STEPS));
    compared_with(&a, &ta, &b, &tb);
    for (size_t kind = 0; kind < COMBINATIONS; kind++) {
        combined(kind, &c, &tc, &a, &ta, &b, &tb);
    }
    compared_with(&c, &tc, &a, &ta);

    long before = asked;
    uint32_t answer = told(CALL(clone)(&c, &a), before);
    CHECK(answer != RSB_UNCHANGED);
    tc = answer == RSB_CHANGED ? ta : tc;
    same(&c, &tc);
    compared_with(&a, &ta, &c, &tc);
    filled(&c, &tc, 3);
    same(&a, &ta);

    changed_by(&c, &tc, &b, &tb);
    changed_by(&d, &td, &c, &tc);
    gathered(&d, &td);
    told_by_text(&d, &td, &b, &tb);
    told_by_short_text(&b, &tb);
    told_by_no_text(&d, &td);
    CALL(free)(&d);
    complemented(&d, &c, &b, &tb);

    CALL(clear)(&a);
    ta = (table){{false}};
    same(&a, &ta);
    filled(&a, &ta, 3);
    CALL(free)(&a);
    CALL(free)(&a);
    ta = (table){{false}};
    same(&a, &ta);
    CALL(free)(&b);
    CALL(free)(&c);
    CALL(free)(&d);
    CHECK(held == 0);
    return asked;
}

/* Both walks over the set of its two ends, or of every value. */
static void walked_to_the_ends(const set_t *set, size_t runs) {
    run_t run = {3, 2};
    size_t steps = 0;
    for (bool more = CALL(next_run)(set, LEAST, &run); more; more = CALL(run_after)(set, run.last, &run)) {
        steps++;
    }
    CHECK(steps == runs && run.last == GREATEST);
    for (bool more = CALL(prev_run)(set, GREATEST, &run); more; more = CALL(run_before)(set, run.first, &run)) {
        steps--;
    }
    CHECK(steps == 0 && run.first == LEAST);
    run_t block[4] = {{3, 2}, {3, 2}, {3, 2}, {3, 2}};
    CHECK(CALL(runs_in)(set, LEAST, GREATEST, block, 3) == runs);
    CHECK(block[0].first == LEAST && block[runs - 1].last == GREATEST && block[runs].first == 3 && block[runs].last == 2);
}

/* Runs that cross the bounds, arrays that are full or empty, and the null set. */
static void stored_by_rows(void) {
    static const run_t members[] = {{0, 4}, {7, 7}, {10, 20}, {GREATEST - 1, GREATEST}};
    static const struct {
        number first, last;
        size_t most, count;
        run_t runs[4];
    } rows[] = {
        {0, GREATEST, 4, 4, {{0, 4}, {7, 7}, {10, 20}, {GREATEST - 1, GREATEST}}},
        {0, GREATEST, 3, 3, {{0, 4}, {7, 7}, {10, 20}}},
        {21, GREATEST, 3, 1, {{GREATEST - 1, GREATEST}}},
        {3, 12, 4, 3, {{3, 4}, {7, 7}, {10, 12}}},
        {3, 12, 1, 1, {{3, 4}}},
        {12, 15, 4, 1, {{12, 15}}},
        {5, 7, 4, 1, {{7, 7}}},
        {7, 9, 4, 1, {{7, 7}}},
        {4, 4, 4, 1, {{4, 4}}},
        {GREATEST, GREATEST, 4, 1, {{GREATEST, GREATEST}}},
        {5, 6, 4, 0, {{0}}},
        {12, 3, 4, 0, {{0}}},
        {GREATEST, 0, 4, 0, {{0}}},
        {0, GREATEST, 0, 0, {{0}}},
    };
    set_t some = RSB_EMPTY, none = RSB_EMPTY;
    CHECK(CALL(from_runs)(&some, members, 4) == RSB_CHANGED);
    long before = asked;
    for (size_t row = 0; row < sizeof rows / sizeof *rows; row++) {
        run_t block[4] = {{3, 2}, {3, 2}, {3, 2}, {3, 2}};
        run_t *runs = rows[row].most > 0 ? block : NULL;
        CHECK(CALL(runs_in)(&none, rows[row].first, rows[row].last, runs, rows[row].most) == 0);
        CHECK(block[0].first == 3 && block[0].last == 2);
        CHECK(CALL(runs_in)(&some, rows[row].first, rows[row].last, runs, rows[row].most) == rows[row].count);
        for (size_t i = 0; i < 4; i++) {
            run_t wanted = i < rows[row].count ? rows[row].runs[i] : (run_t){3, 2};
            CHECK(block[i].first == wanted.first && block[i].last == wanted.last);
        }
    }
    CHECK(asked == before && CALL(run_count)(&some) == 4);
    CALL(free)(&some);
}

/* The set of every value. */
static void whole(void) {
    refused_at = 0;
    set_t all = RSB_EMPTY, none = RSB_EMPTY;
    run_t run = {3, 2};
    number value = 7;
    CHECK(CALL(complement)(&all, &none) == RSB_CHANGED);
    CHECK(CALL(next_run)(&all, GREATEST, &run) && run.first == LEAST && run.last == GREATEST);
    CHECK(CALL(prev_run)(&all, 0, &run) && run.first == LEAST && run.last == GREATEST);
    CHECK(!CALL(run_after)(&all, 0, &run) && !CALL(run_before)(&all, GREATEST, &run));
    CHECK(CALL(run_count)(&all) == 1);
    walked_to_the_ends(&all, 1);
    CHECK(counts_all(CALL(len)(&all)) && counts_all(CALL(len_in)(&all, LEAST, GREATEST)));
    CHECK(counted(CALL(rank)(&all, GREATEST)) == (plain)GREATEST - (plain)LEAST);
    CHECK(CALL(nth)(&all, (plain)GREATEST - (plain)LEAST, &value) && value == GREATEST);
    CHECK(CALL(nth)(&all, 0, &value) && value == LEAST);
    CHECK(CALL(contains_range)(&all, LEAST, GREATEST) && !CALL(is_disjoint_range)(&all, LEAST, GREATEST));
    CHECK(!CALL(contains_range)(&none, LEAST, GREATEST) && CALL(is_disjoint_range)(&none, LEAST, GREATEST));
    CHECK(!CALL(first_gap)(&all, LEAST, 0, &run));
    CHECK(CALL(first_run_of)(&all, LEAST, ~(plain)0, &run) && run.first == LEAST && run.last == GREATEST);
    CHECK(CALL(first_run_of)(&all, GREATEST, 1, &run) && run.first == GREATEST && run.last == GREATEST);
    CHECK(!CALL(first_run_of)(&all, GREATEST, 2, &run) && !CALL(first_run_of)(&none, LEAST, 0, &run));
    CHECK(CALL(first_gap)(&none, 5, 0, &run) && run.first == 5 && run.last == GREATEST);
    CHECK(CALL(insert)(&all, 5) == RSB_UNCHANGED);
    CHECK(CALL(remove)(&all, GREATEST) == RSB_CHANGED);
    CHECK(!CALL(next_run)(&all, GREATEST, &run) && run.last == GREATEST);
    CHECK(CALL(run_or_gap)(&none, 5, &run) == false && run.first == LEAST && run.last == GREATEST);
    CHECK(CALL(insert)(&all, GREATEST) == RSB_CHANGED);
    CHECK(CALL(remove_range)(&all, LEAST + 1, GREATEST - 1) == RSB_CHANGED);
    walked_to_the_ends(&all, 2);
    CALL(free)(&all);
    CALL(free)(&none);
}

/* Changes by the empty set ask for no memory. */
static void changed_by_nothing(void) {
    set_t some = RSB_EMPTY, none = RSB_EMPTY;
    CHECK(CALL(insert_range)(&some, 5, 9) == RSB_CHANGED);
    long before = asked;
    CHECK(CALL(union_with)(&some, &none) == RSB_UNCHANGED && CALL(subtract)(&some, &none) == RSB_UNCHANGED);
    CHECK(CALL(xor_with)(&some, &none) == RSB_UNCHANGED && CALL(intersect_with)(&some, &none) == RSB_CHANGED);
    CHECK(CALL(run_count)(&some) == 0 && asked == before);
    CALL(free)(&some);
}

/* No runs, no text and the text of no members ask for no memory. */
static void made_of_nothing(void) {
    set_t some = RSB_EMPTY;
    size_t length = 7;
    CHECK(CALL(insert)(&some, 5) == RSB_CHANGED);
    long before = asked;
    CHECK(CALL(from_runs)(&some, NULL, 0) == RSB_CHANGED && CALL(run_count)(&some) == 0);
    CHECK(asked == before && CALL(insert)(&some, 5) == RSB_CHANGED);
    before = asked;
    CHECK(CALL(from_text)(&some, NULL, 0) == RSB_CHANGED && CALL(run_count)(&some) == 0);
    CHECK(CALL(to_text)(&some, NULL, 0, &length) == RSB_CHANGED && length == 0 && asked == before);
    CHECK(CALL(insert)(&some, 5) == RSB_CHANGED && CALL(remove)(&some, 5) == RSB_CHANGED);
    before = asked;
    length = 7;
    CHECK(CALL(to_text)(&some, NULL, 0, &length) == RSB_CHANGED && length == 0 && asked == before);
    CALL(free)(&some);
}

/* What text may list: blanks, signs, ranges in any order, and numbers up to both ends of the type. */
static void read_from_text(void) {
    static const char text[] = " 7 , 3 ..= 5,\t+4..=2\n,1..=4";
    char least[48], greatest[48];
    size_t length = write_number(greatest, GREATEST), place = 7;
    set_t some = RSB_EMPTY;
    run_t run = {3, 2};
    CHECK(CALL(from_text_at)(&some, text, sizeof text - 1, &place) == RSB_CHANGED && place == 7);
    CHECK(CALL(run_count)(&some) == 2);
    CHECK(CALL(next_run)(&some, LEAST, &run) && run.first == 1 && run.last == 5);
    CHECK(CALL(run_after)(&some, 5, &run) && run.first == 7 && run.last == 7);
    CHECK(CALL(from_text)(&some, greatest, length) == RSB_CHANGED && CALL(contains)(&some, GREATEST));
    CHECK(counted(CALL(len)(&some)) == 1);
    greatest[length - 1]++;
    CHECK(CALL(from_text_at)(&some, greatest, length, &place) == RSB_BAD_TEXT && place == length - 1);
    CHECK(counted(CALL(len)(&some)) == 1);
    length = write_number(least, LEAST);
    CHECK(CALL(from_text)(&some, least, length) == RSB_CHANGED && CALL(contains)(&some, LEAST));
    least[length - 1]++;
    CHECK(!SIGNED || (CALL(from_text_at)(&some, least, length, &place) == RSB_BAD_TEXT && place == length - 1));
    CHECK(CALL(from_text)(&some, "-0", 2) == RSB_CHANGED && CALL(contains)(&some, 0) && counted(CALL(len)(&some)) == 1);
    CHECK(CALL(from_text_at)(&some, "5, -1", 5, &place) == (SIGNED ? RSB_CHANGED : RSB_BAD_TEXT));
    CHECK(SIGNED ? CALL(contains)(&some, (number)-1) : place == 4);
    CHECK(CALL(from_text)(&some, "", 0) == RSB_CHANGED && CALL(run_count)(&some) == 0);
    CHECK(CALL(from_text)(&some, " \t\r\n", 4) == RSB_CHANGED && CALL(run_count)(&some) == 0);
    CHECK(CALL(from_text)(&some, "1..=5", 4) == RSB_BAD_TEXT && CALL(run_count)(&some) == 0);
    CALL(free)(&some);
}

#if SIGNED
#if WIDTH == 64
#define PLAIN(name) rsb_u64_##name
typedef rsb_u64 plain_set_t;
#elif WIDTH == 32
#define PLAIN(name) rsb_u32_##name
typedef rsb_u32 plain_set_t;
#else
#define PLAIN(name) rsb_u128_##name
typedef rsb_u128 plain_set_t;
#endif

/* Text with no minus sign, and with short numbers, is read as the export for numbers without signs reads it. */
static void read_as_without_signs(void) {
    enum { TEXTS = 100000, LONG = 9 };
    static const char bytes[] = "0179,,..=+ \t\rx";
    unsigned long long good = 0;
    for (int i = 0; i < TEXTS; i++) {
        char text[LONG], one[LONGEST], other[LONGEST];
        size_t length = drawn(LONG + 1), at = 99, plain_at = 99, found = 0, plain_found = 0;
        for (size_t place = 0; place < length; place++) {
            text[place] = bytes[drawn(sizeof bytes - 1)];
        }
        if (length > 5 && drawn(2)) {
            memcpy(text + drawn(length - 4), "..=", 3);
        }
        set_t set = RSB_EMPTY;
        plain_set_t plain_set = RSB_EMPTY;
        uint32_t answer = CALL(from_text_at)(&set, text, length, &at);
        CHECK(answer == PLAIN(from_text_at)(&plain_set, text, length, &plain_at) && at == plain_at);
        CHECK((at == 99) == (answer == RSB_CHANGED));
        CHECK(CALL(to_text)(&set, one, sizeof one, &found) == RSB_CHANGED);
        CHECK(PLAIN(to_text)(&plain_set, other, sizeof other, &plain_found) == RSB_CHANGED);
        CHECK(found == plain_found && !memcmp(one, other, found));
        good += answer == RSB_CHANGED;
        CALL(free)(&set);
        PLAIN(free)(&plain_set);
    }
    CHECK(good > TEXTS / 50 && held == 0);
}
#endif

int main(void) {
    for (unsigned long long start = 1; start <= ROUNDS; start++) {
        long wanted = round_of(start * 2654435761u, 0);
        for (long refused = 1; start <= 8 && refused <= wanted; refused++) {
            round_of(start * 2654435761u, refused);
        }
    }
    CHECK(refusals > 0);
    whole();
    stored_by_rows();
    changed_by_nothing();
    made_of_nothing();
    read_from_text();
#if SIGNED
    read_as_without_signs();
#endif
    printf(SIGN "%d: each call agrees with its table, %llu allocations refused\n", WIDTH, refusals);
    return 0;
}
