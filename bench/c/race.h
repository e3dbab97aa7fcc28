/* Times the calls on the sets of one library. A file that includes this first defines a type `set_t` and these calls:
 *
 *     make_empty(set)             makes the empty set
 *     drop(set)                   frees a set
 *     insert_range(set, first, last), remove_range(set, first, last), contains(set, value)
 *     make_union(out, left, right), make_intersection(out, left, right), make_difference(out, left, right)
 *     make_clone(out, set)
 *     digest_runs(set, digest)    passes each run to `digest_run`, by single steps
 *     digest_blocks(set, digest)  the same by arrays of 64 runs, or by single steps if the library fills no arrays
 *     print_version()             prints the version of the library
 *
 * The first line of the output is the version. Each other line has a workload, a call, the nanoseconds that it took for all
 * ranges or values, their number, and a digest of the result. bench/peers/race makes the same calls in Rattle.
 *
 *     race SEED
 *     race SEED WORKLOAD CALL OFTEN
 *
 * In the second form, the program makes only this call, OFTEN times, for a count of its instructions. A digest is then 0,
 * except that of a walk, which is what it does. */
#include "clock.h"
#include "digest.h"

#include <stdio.h>
#include <stdlib.h>
#include <string.h>

enum { RANGES = 100000, VALUES = 1000000 };

/* A workload: one range of at most `longest` values in each `apart` values. */
typedef struct workload {
    const char *name;
    uint32_t apart;
    uint32_t longest;
} workload;

typedef struct range {
    uint32_t first;
    uint32_t last;
} range;

/* What the command line asks for: all calls if `call` is null. */
typedef struct question {
    uint64_t seed;
    const char *load;
    const char *call;
    int often;
} question;

static question asked;
static range left_ranges[RANGES], right_ranges[RANGES];
static uint32_t values[VALUES];
static uint64_t seed;

static bool asks_for(const workload *load) {
    return asked.call == NULL || strcmp(asked.load, load->name) == 0;
}

/* How often a call is made. */
static int times(const workload *load, const char *call) {
    if (asked.call == NULL) {
        return 1;
    }
    return asks_for(load) && strcmp(asked.call, call) == 0 ? asked.often : 0;
}

/* xorshift. */
static uint32_t drawn(uint32_t below) {
    seed ^= seed << 13;
    seed ^= seed >> 7;
    seed ^= seed << 17;
    return (uint32_t)(seed % below);
}

/* Draws ranges in random order. */
static void draw_ranges(const workload *load, range *ranges) {
    for (uint32_t i = 0; i < RANGES; i++) {
        ranges[i].first = load->apart * i + drawn(load->longest);
        ranges[i].last = ranges[i].first + drawn(load->longest);
    }
    for (uint32_t i = RANGES - 1; i > 0; i--) {
        uint32_t other = drawn(i + 1);
        range kept = ranges[i];
        ranges[i] = ranges[other];
        ranges[other] = kept;
    }
}

static void draw(const workload *load) {
    seed = 88172645463325252u + asked.seed;
    draw_ranges(load, left_ranges);
    draw_ranges(load, right_ranges);
    for (size_t i = 0; i < VALUES; i++) {
        values[i] = left_ranges[drawn(RANGES)].first;
        values[i] += drawn(2 * load->longest);
    }
}

typedef void walk(const set_t *set, run_digest *digest);

static uint64_t digest_by(walk *pass, const set_t *set) {
    run_digest digest = digest_begin();
    pass(set, &digest);
    return digest_end(&digest);
}

static uint64_t digest_of(const set_t *set) {
    return asked.call == NULL ? digest_by(digest_runs, set) : 0;
}

static void say(const workload *load, const char *call, double nanoseconds, int count, uint64_t result) {
    printf("%s\t%s\t%.0f\t%d\t%llu\n", load->name, call, nanoseconds, count, (unsigned long long)result);
}

static void fill(set_t *set, const range *ranges) {
    make_empty(set);
    for (size_t i = 0; i < RANGES; i++) {
        insert_range(set, ranges[i].first, ranges[i].last);
    }
}

static void race_insertion(const workload *load) {
    static const char call[] = "insert a range";
    for (int i = 0; i < times(load, call); i++) {
        set_t set;
        double began = now();
        fill(&set, left_ranges);
        double ended = now();
        say(load, call, ended - began, RANGES, digest_of(&set));
        drop(&set);
    }
}

static void race_membership(const workload *load, const set_t *set) {
    static const char call[] = "look up a value";
    for (int i = 0; i < times(load, call); i++) {
        uint64_t members = 0;
        double began = now();
        for (size_t j = 0; j < VALUES; j++) {
            members += contains(set, values[j]);
        }
        say(load, call, now() - began, VALUES, members);
    }
}

typedef void combination(set_t *out, const set_t *left, const set_t *right);

static void race_combination(
    const workload *load, const char *call, combination *make, const set_t *left, const set_t *right) {
    for (int i = 0; i < times(load, call); i++) {
        set_t out;
        double began = now();
        make(&out, left, right);
        double ended = now();
        say(load, call, ended - began, RANGES, digest_of(&out));
        drop(&out);
    }
}

static void race_copy(const workload *load, const set_t *set) {
    static const char call[] = "clone";
    for (int i = 0; i < times(load, call); i++) {
        set_t out;
        double began = now();
        make_clone(&out, set);
        double ended = now();
        say(load, call, ended - began, RANGES, digest_of(&out));
        drop(&out);
    }
}

static void race_walk(const workload *load, const char *call, walk *pass, const set_t *set) {
    for (int i = 0; i < times(load, call); i++) {
        double began = now();
        uint64_t result = digest_by(pass, set);
        say(load, call, now() - began, RANGES, result);
    }
}

static void race_removal(const workload *load, set_t *set) {
    static const char call[] = "remove a range";
    for (int i = 0; i < times(load, call); i++) {
        double began = now();
        for (size_t j = 0; j < RANGES; j++) {
            remove_range(set, right_ranges[j].first, right_ranges[j].last);
        }
        double ended = now();
        say(load, call, ended - began, RANGES, digest_of(set));
    }
}

static void race(const workload *load) {
    set_t left, right;
    draw(load);
    race_insertion(load);
    fill(&left, left_ranges);
    fill(&right, right_ranges);
    race_membership(load, &left);
    race_combination(load, "union", make_union, &left, &right);
    race_combination(load, "intersection", make_intersection, &left, &right);
    race_combination(load, "difference", make_difference, &left, &right);
    race_copy(load, &left);
    race_walk(load, "walk over the runs", digest_runs, &left);
    race_walk(load, "walk by 64 runs", digest_blocks, &left);
    race_removal(load, &left);
    drop(&left);
    drop(&right);
}

static question question_of(int count, char **words) {
    question all = {count > 1 ? strtoull(words[1], NULL, 10) : 0, NULL, NULL, 0};
    if (count > 4) {
        all.load = words[2];
        all.call = words[3];
        all.often = atoi(words[4]);
    }
    return all;
}

int main(int count, char **words) {
    static const workload loads[] = {{"near", 20, 10}, {"far", 40000, 100}};
    asked = question_of(count, words);
    print_version();
    for (size_t i = 0; i < sizeof loads / sizeof loads[0]; i++) {
        if (asks_for(&loads[i])) {
            race(&loads[i]);
        }
    }
    return 0;
}
