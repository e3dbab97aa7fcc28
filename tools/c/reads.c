/* Calls that only read a set write nothing: here its handle and all its memory can't be written while they are called, and
 * four threads call them at once. It is compiled once for each kind of number (kinds.h). */
#define _DEFAULT_SOURCE
#include "kinds.h"

#include <pthread.h>
#include <stdio.h>
#include <stdlib.h>
#include <string.h>
#include <sys/mman.h>

enum { ARENA = 1 << 26, RUNS = 20000, THREADS = 4 };

static char *arena;
static size_t used;

static void *block(size_t size) {
    void *at = arena + used;
    used += (size + 15) / 16 * 16;
    if (used > ARENA) {
        abort();
    }
    return at;
}

/* An allocator of one arena, which gives nothing back. */
void *__wrap_malloc(size_t size) {
    return block(size);
}

void *__wrap_realloc(void *at, size_t size) {
    void *next = block(size);
    if (at != NULL) {
        size_t kept = (size_t)((char *)next - (char *)at);
        memcpy(next, at, size < kept ? size : kept);
    }
    return next;
}

void __wrap_free(void *at) {
    (void)at;
}

/* The handles lie in the arena too. */
typedef struct pair {
    set_t one;
    set_t other;
} pair;

#define CHECK(claim)                                                                  \
    do {                                                                              \
        if (!(claim)) {                                                               \
            fprintf(stderr, "%s:%d: not so: %s\n", __FILE__, __LINE__, #claim);       \
            exit(1);                                                                  \
        }                                                                             \
    } while (0)

/* The calls that look for a run or a gap beside a value. */
static void looks(const set_t *set, number value, bool member) {
    run_t run;
    CHECK(CALL(run_or_gap)(set, value, &run) == member);
    CHECK(!CALL(next_run)(set, value, &run) || run.first % 20 == 0);
    CHECK(CALL(prev_run)(set, value, &run) && run.first % 20 == 0);
    CHECK(!CALL(run_after)(set, value, &run) || run.first > value);
    CHECK(!CALL(run_before)(set, value, &run) || run.last < value);
    CHECK(CALL(next_gap)(set, value, &run) && run.last >= value);
    CHECK(!CALL(prev_gap)(set, value, &run) || run.first <= value);
    CHECK(!CALL(gap_after)(set, value, &run) || run.first > value);
    CHECK(!CALL(gap_before)(set, value, &run) || run.last < value);
}

/* The calls that read the whole set, or two. */
static void reads_all(const pair *sets) {
    static const char text[] = "0..=9, 20..=29";
    const set_t *set = &sets->one, *other = &sets->other;
    number value = 0, first = 0, last = 0;
    run_t run, runs[3];
    size_t length = 0;
    CHECK(counted(CALL(len_in)(set, 10, 39)) == 10 && counted(CALL(rank)(set, 25)) == 15);
    CHECK(CALL(nth)(set, 15, &value) && value == 25);
    CHECK(CALL(runs_in)(set, 5, 25, runs, 3) == 2 && runs[0].first == 5 && runs[1].last == 25);
    CHECK(CALL(first_gap)(set, 5, 3, &run) && run.first == 10 && run.last == 19);
    CHECK(CALL(first_run_of)(set, 5, 6, &run) && run.first == 20 && run.last == 29);
    CHECK(counted(CALL(len)(set)) == 10 * RUNS && CALL(run_count)(set) == RUNS && !CALL(is_empty)(set));
    CHECK(CALL(first)(set, &first) && CALL(last)(set, &last) && first < last);
    CHECK(CALL(first_run)(set, &run) && run.first == first && CALL(last_run)(set, &run) && run.last == last);
    CHECK(CALL(to_short_text)(set, NULL, 0, &length) == RSB_NO_ROOM && length > sizeof text);
    CHECK(CALL(equal)(set, other) && CALL(order)(set, other) == 0);
    CHECK(CALL(is_subset)(set, other) && !CALL(is_disjoint)(set, other));
}

static void *reads(void *argument) {
    const pair *sets = argument;
    for (int value = 0; value < 20 * RUNS; value += 7) {
        bool member = value % 20 < 10;
        CHECK(CALL(contains)(&sets->one, (number)value) == member);
        CHECK(CALL(contains_range)(&sets->one, (number)value, (number)value) == member);
        CHECK(CALL(is_disjoint_range)(&sets->one, (number)value, (number)value) == !member);
        looks(&sets->one, (number)value, member);
    }
    for (int turn = 0; turn < 20; turn++) {
        reads_all(sets);
    }
    return NULL;
}

int main(void) {
    arena = mmap(NULL, ARENA, PROT_READ | PROT_WRITE, MAP_PRIVATE | MAP_ANONYMOUS, -1, 0);
    CHECK(arena != MAP_FAILED);
    pair *sets = block(sizeof *sets);
    memset(sets, 0, sizeof *sets);
    for (int start = 0; start < 20 * RUNS; start += 20) {
        CHECK(CALL(insert_range)(&sets->one, (number)start, (number)start + 9) == RSB_CHANGED);
    }
    CHECK(CALL(clone)(&sets->other, &sets->one) == RSB_CHANGED);

    CHECK(mprotect(arena, ARENA, PROT_READ) == 0);
    pthread_t threads[THREADS];
    for (int i = 0; i < THREADS; i++) {
        CHECK(pthread_create(&threads[i], NULL, reads, sets) == 0);
    }
    for (int i = 0; i < THREADS; i++) {
        CHECK(pthread_join(threads[i], NULL) == 0);
    }
    printf(SIGN "%d: reads write nothing: %d threads at once, over memory that can't be written\n", WIDTH, THREADS);
    return 0;
}
