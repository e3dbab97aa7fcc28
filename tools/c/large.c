/* Sets of over a thousand and of over a million runs: from_runs, each call that changes a set, and each that reads one. The
 * runs are LEAST + STEP * i to LEAST + STEP * i + 1, so each answer is known.
 *
 * It is compiled once for each kind of number (kinds.h). */
#include "kinds.h"

#include <stdio.h>
#include <stdlib.h>

enum { STEP = 3000, MANY = 1200000 };

static size_t size;

#define CHECK(claim)                                                                                      \
    do {                                                                                                  \
        if (!(claim)) {                                                                                   \
            fprintf(stderr, "%s:%d: " SIGN "%d, %zu runs: not so: %s\n", __FILE__, __LINE__, WIDTH, size, #claim); \
            exit(1);                                                                                      \
        }                                                                                                 \
    } while (0)

static number first_of(size_t place) {
    return (number)((plain)LEAST + (plain)place * STEP);
}

/* The runs, in an order that jumps about; each run that is even also comes as two values that touch. */
static size_t listed(run_t *runs) {
    size_t stored = 0;
    for (size_t i = 0; i < size; i++) {
        size_t place = i * 7919 % size;
        number first = first_of(place);
        if (place % 2 == 0) {
            runs[stored++] = (run_t){first + 1, first + 1};
            runs[stored++] = (run_t){first, first};
        } else {
            runs[stored++] = (run_t){first, first + 1};
        }
        if (place % 5 == 0) {
            runs[stored++] = (run_t){first + 9, first + 8}; /* no values */
        }
    }
    return stored;
}

/* Checks that the runs from some place on are those of listed(), by one walk. */
static void walked(const set_t *set, size_t place, size_t runs) {
    enum { BLOCK = 64 };
    run_t block[BLOCK];
    number next = first_of(place);
    size_t stored = BLOCK, seen = 0;
    while (stored == BLOCK) {
        stored = CALL(runs_in)(set, next, GREATEST, block, BLOCK);
        for (size_t i = 0; i < stored; i++) {
            CHECK(block[i].first == first_of(place) && block[i].last == first_of(place) + 1);
            place++;
            seen++;
        }
        next = stored == BLOCK ? block[BLOCK - 1].last + 1 : next;
    }
    CHECK(seen == runs);
}

/* Each call that reads the set. */
static void read(const set_t *set) {
    number value = 7;
    run_t run = {3, 2};
    number middle = first_of(size / 2), end = first_of(size - 1);
    CHECK(CALL(run_count)(set) == size && counted(CALL(len)(set)) == 2 * size && !CALL(is_empty)(set));
    CHECK(CALL(first)(set, &value) && value == LEAST && CALL(last)(set, &value) && value == end + 1);
    CHECK(CALL(contains)(set, middle) && CALL(contains)(set, end + 1) && !CALL(contains)(set, middle + 2));
    CHECK(CALL(contains_range)(set, end, end + 1) && !CALL(contains_range)(set, middle, middle + STEP));
    CHECK(CALL(is_disjoint_range)(set, middle + 2, middle + STEP - 1) && !CALL(is_disjoint_range)(set, LEAST + 2, end));
    CHECK(counted(CALL(len_in)(set, LEAST + 1, end)) == 2 * size - 2 && counted(CALL(rank)(set, end)) == 2 * size - 2);
    CHECK(CALL(nth)(set, 2 * size - 1, &value) && value == end + 1 && !CALL(nth)(set, 2 * size, &value));
    CHECK(CALL(run_or_gap)(set, middle, &run) && run.first == middle && run.last == middle + 1);
    CHECK(!CALL(run_or_gap)(set, middle + 5, &run) && run.first == middle + 2 && run.last == middle + STEP - 1);
    CHECK(CALL(next_run)(set, middle + 2, &run) && run.first == middle + STEP);
    CHECK(CALL(prev_run)(set, middle - 1, &run) && run.first == middle - STEP);
    CHECK(CALL(run_after)(set, middle, &run) && run.first == middle + STEP);
    CHECK(CALL(run_before)(set, middle, &run) && run.first == middle - STEP && !CALL(run_after)(set, end, &run));
    CHECK(CALL(first_gap)(set, LEAST, STEP - 1, &run) && run.first == end + 2 && run.last == GREATEST);
    CHECK(CALL(gap_after)(set, middle, &run) && run.first == middle + 2 && CALL(first_run)(set, &run) && run.first == LEAST);
    CHECK(CALL(first_run_of)(set, middle + 1, 2, &run) && run.first == middle + STEP && !CALL(first_run_of)(set, LEAST, 3, &run));
    walked(set, 0, size);
    walked(set, size / 2, size - size / 2);
}

/* Each call that changes the set at one place, at its ends and in its middle. Each change is taken back. */
static void changed_at(set_t *set, size_t place) {
    number first = first_of(place);
    CHECK(CALL(remove)(set, first) == RSB_CHANGED && !CALL(contains)(set, first) && CALL(contains)(set, first + 1));
    CHECK(CALL(remove)(set, first) == RSB_UNCHANGED && CALL(run_count)(set) == size);
    CHECK(CALL(insert)(set, first) == RSB_CHANGED && CALL(insert)(set, first) == RSB_UNCHANGED);
    CHECK(CALL(insert_range)(set, first + 2, first + 9) == RSB_CHANGED && CALL(run_count)(set) == size);
    CHECK(CALL(remove)(set, first + 5) == RSB_CHANGED && CALL(run_count)(set) == size + 1);
    CHECK(CALL(insert)(set, first + 20) == RSB_CHANGED && CALL(run_count)(set) == size + 2);
    CHECK(CALL(remove_range)(set, first + 2, first + 20) == RSB_CHANGED && CALL(run_count)(set) == size);
    CHECK(CALL(remove_range)(set, first + 2, first + 20) == RSB_UNCHANGED);
    CHECK(CALL(remove_range)(set, first, first + 1) == RSB_CHANGED && CALL(run_count)(set) == size - 1);
    CHECK(CALL(insert_range)(set, first, first + 1) == RSB_CHANGED);
    CHECK(CALL(insert_range)(set, first, first + 1) == RSB_UNCHANGED && CALL(run_count)(set) == size);
}

/* Each call in place with a small operand, and with one that has as many runs. */
static void changed_by_sets(set_t *set) {
    set_t few = RSB_EMPTY, all = RSB_EMPTY, none = RSB_EMPTY;
    number middle = first_of(size / 2), end = first_of(size - 1);
    const run_t runs[] = {{end + 5, end + 6}, {middle, middle + 1}};
    CHECK(CALL(from_runs)(&few, runs, 2) == RSB_CHANGED && CALL(clone)(&all, set) == RSB_CHANGED);
    CHECK(CALL(equal)(set, &all) && CALL(order)(set, &all) == 0 && CALL(is_subset)(&all, set));
    CHECK(CALL(union_with)(set, &all) == RSB_UNCHANGED && CALL(intersect_with)(set, &all) == RSB_UNCHANGED);
    CHECK(CALL(union_with)(set, &few) == RSB_CHANGED && CALL(run_count)(set) == size + 1);
    CHECK(CALL(is_subset)(&all, set) && !CALL(is_subset)(set, &all) && CALL(order)(set, &all) == 1);
    CHECK(CALL(intersect_with)(set, &all) == RSB_CHANGED && CALL(equal)(set, &all));
    CHECK(CALL(subtract)(set, &few) == RSB_CHANGED && CALL(run_count)(set) == size - 1);
    CHECK(CALL(is_disjoint)(set, &few) && !CALL(is_disjoint)(set, &all) && CALL(subtract)(set, &few) == RSB_UNCHANGED);
    CHECK(CALL(xor_with)(set, &few) == RSB_CHANGED && CALL(run_count)(set) == size + 1);
    CHECK(CALL(xor_with)(set, &all) == RSB_CHANGED && CALL(run_count)(set) == 1 && CALL(is_subset)(set, &few));
    CHECK(CALL(subtract)(set, set) == RSB_CHANGED && CALL(is_empty)(set) && CALL(subtract)(&few, &few) == RSB_CHANGED);
    CHECK(CALL(union_with)(set, &all) == RSB_CHANGED && CALL(equal)(set, &all));
    CHECK(CALL(subtract)(&all, set) == RSB_CHANGED && CALL(is_empty)(&all));
    CHECK(CALL(intersect_with)(&all, set) == RSB_UNCHANGED && CALL(intersect_with)(&few, &none) == RSB_UNCHANGED);
    CALL(free)(&few);
    CALL(free)(&all);
}

/* Each call that makes a set. The first half and the second one have a run in common. */
static void combined(const set_t *set) {
    set_t low = RSB_EMPTY, high = RSB_EMPTY, out = RSB_EMPTY, back = RSB_EMPTY;
    number middle = first_of(size / 2);
    CHECK(CALL(clone)(&low, set) == RSB_CHANGED && CALL(remove_range)(&low, middle + 2, GREATEST) == RSB_CHANGED);
    CHECK(CALL(clone)(&high, set) == RSB_CHANGED && CALL(remove_range)(&high, LEAST, middle - 1) == RSB_CHANGED);
    CHECK(CALL(union)(&out, &low, &high) == RSB_CHANGED && CALL(equal)(&out, set));
    CHECK(CALL(intersection)(&out, &low, &high) == RSB_CHANGED && CALL(run_count)(&out) == 1);
    CHECK(CALL(contains_range)(&out, middle, middle + 1));
    CHECK(CALL(difference)(&out, set, &low) == RSB_CHANGED && CALL(run_count)(&out) == size - size / 2 - 1);
    CHECK(CALL(symmetric_difference)(&out, &low, &high) == RSB_CHANGED && CALL(run_count)(&out) == size - 1);
    CHECK(CALL(complement)(&out, set) == RSB_CHANGED && CALL(run_count)(&out) == size && CALL(is_disjoint)(&out, set));
    CHECK(CALL(complement)(&back, &out) == RSB_CHANGED && CALL(equal)(&back, set));
    const set_t *const three[] = {&low, &high, set};
    CHECK(CALL(union_of)(&out, three, 3) == RSB_CHANGED && CALL(equal)(&out, set));
    CHECK(CALL(intersection_of)(&out, three, 3) == RSB_CHANGED && CALL(run_count)(&out) == 1);
    CHECK(CALL(symmetric_difference_of)(&out, three, 3) == RSB_CHANGED && CALL(run_count)(&out) == 1);
    CHECK(CALL(at_least)(&out, three, 3, 2) == RSB_CHANGED && CALL(equal)(&out, set));
    CALL(free)(&low);
    CALL(free)(&high);
    CALL(free)(&out);
    CALL(free)(&back);
}

/* The text of the set, and back. */
static void written(const set_t *set) {
    set_t back = RSB_EMPTY;
    size_t length = 0, again = 0;
    CHECK(CALL(to_short_text)(set, NULL, 0, &again) == RSB_NO_ROOM);
    CHECK(CALL(to_text)(set, NULL, 0, &length) == RSB_NO_ROOM && length == again && length > 5 * size);
    char *text = malloc(length);
    CHECK(text != NULL && CALL(to_text)(set, text, length, &again) == RSB_CHANGED && again == length);
    CHECK(CALL(from_text)(&back, text, length) == RSB_CHANGED && CALL(equal)(&back, set));
    CALL(free)(&back);
    free(text);
}

static void tried(size_t runs) {
    size = runs;
    run_t *array = malloc(3 * size * sizeof *array);
    CHECK(array != NULL);
    set_t set = RSB_EMPTY;
    CHECK(CALL(from_runs)(&set, array, listed(array)) == RSB_CHANGED);
    free(array);
    read(&set);
    changed_at(&set, 0);
    changed_at(&set, size / 2);
    changed_at(&set, size - 1);
    changed_by_sets(&set);
    combined(&set);
    written(&set);
    read(&set);
    CALL(clear)(&set);
    CHECK(CALL(is_empty)(&set) && CALL(insert)(&set, 5) == RSB_CHANGED && CALL(run_count)(&set) == 1);
    CALL(free)(&set);
}

int main(void) {
    tried(1001);
    tried(10007);
    tried(MANY);
    printf(SIGN "%d: sets of up to %d runs answer as they should\n", WIDTH, MANY);
    return 0;
}
