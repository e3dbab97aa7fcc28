/* Times one call on sets of any size. The words are those of bench/peers/growth, which makes the same calls in Rust, and the
 * distance from the start of a run to that of the next one:
 *
 *     growth CALL RUNS SETS OFTEN APART
 *
 * The line that it prints is the same too. A file that includes this first defines what race.h lists, and
 *
 *     make_union_of(out, sets, count)     makes the union of an array of sets
 *     count_runs(set, length)             counts the runs of a set whose runs have `length` members each */
#include "clock.h"

#include <stdio.h>
#include <stdlib.h>
#include <string.h>

enum { LENGTH = 5, STRIDE = 7919, VALUES_IN_TURN = 10 };

/* What the command line asks for. */
typedef struct question {
    const char *call;
    uint64_t runs;
    uint64_t sets;
    uint64_t often;
    uint64_t apart;
} question;

/* The first value of a run. */
static uint32_t start_of(const question *asked, uint64_t number) {
    return (uint32_t)(number * asked->apart);
}

static void insert_run(set_t *set, const question *asked, uint64_t number) {
    uint32_t first = start_of(asked, number);
    insert_range(set, first, first + LENGTH - 1);
}

/* A number of a run. Turns from 0 to `runs` give each number once, in a scattered order. */
static uint64_t scattered(const question *asked, uint64_t turn) {
    return turn * STRIDE % asked->runs;
}

/* Fills one of the sets of a union. Of each `sets` runs in a row, it has one. */
static void fill_share(set_t *set, const question *asked, uint64_t first) {
    for (uint64_t turn = 0; turn < asked->runs / asked->sets; turn++) {
        insert_run(set, asked, turn * asked->sets + first);
    }
}

static set_t *make_sets(uint64_t count) {
    set_t *sets = (set_t *)calloc(count + 1, sizeof(set_t));
    if (sets == NULL) {
        abort();
    }
    for (uint64_t i = 0; i < count; i++) {
        make_empty(&sets[i]);
    }
    return sets;
}

static void drop_sets(set_t *sets, uint64_t count) {
    for (uint64_t i = 0; i < count; i++) {
        drop(&sets[i]);
    }
    free(sets);
}

static void print_line(double nanoseconds, uint64_t result) {
    printf("%.0f %llu\n", nanoseconds, (unsigned long long)result);
}

static void time_insertions(const question *asked) {
    double began = now();
    set_t *sets = make_sets(asked->often);
    for (uint64_t i = 0; i < asked->often; i++) {
        for (uint64_t turn = 0; turn < asked->runs; turn++) {
            insert_run(&sets[i], asked, scattered(asked, turn));
        }
    }
    double passed = now() - began;
    uint64_t runs = 0;
    for (uint64_t i = 0; i < asked->often; i++) {
        runs += count_runs(&sets[i], LENGTH);
    }
    print_line(passed, runs);
    drop_sets(sets, asked->often);
}

static void time_look_ups(const question *asked) {
    set_t set;
    make_empty(&set);
    fill_share(&set, asked, 0);
    uint64_t members = 0;
    double began = now();
    for (uint64_t turn = 0; turn < asked->often; turn++) {
        members += contains(&set, start_of(asked, scattered(asked, turn)) + (uint32_t)(turn % VALUES_IN_TURN));
    }
    print_line(now() - began, members);
    drop(&set);
}

static void time_unions(const question *asked) {
    set_t *shares = make_sets(asked->sets);
    for (uint64_t first = 0; first < asked->sets; first++) {
        fill_share(&shares[first], asked, first);
    }
    uint64_t runs = 0;
    double began = now();
    for (uint64_t i = 0; i < asked->often; i++) {
        set_t out;
        make_union_of(&out, shares, asked->sets);
        runs += count_runs(&out, LENGTH);
        drop(&out);
    }
    print_line(now() - began, runs);
    drop_sets(shares, asked->sets);
}

int main(int count, char **words) {
    if (count != 6) {
        return 2;
    }
    question asked = {words[1], strtoull(words[2], NULL, 10), strtoull(words[3], NULL, 10), strtoull(words[4], NULL, 10),
        strtoull(words[5], NULL, 10)};
    if (strcmp(asked.call, "insertion") == 0) {
        time_insertions(&asked);
    } else if (strcmp(asked.call, "look-up") == 0) {
        time_look_ups(&asked);
    } else {
        time_unions(&asked);
    }
    return 0;
}
