/* The programs for this library. Compile them with -DWIDTH=32 or -DWIDTH=64. */
#define _POSIX_C_SOURCE 199309L
#include "digest.h"

#include <range_set.h>
#include <stdio.h>
#include <stdlib.h>

#if WIDTH == 64
#define CALL(name) rsb_u64_##name
typedef rsb_u64 set_t;
typedef rsb_u64_run run_t;
#else
#define CALL(name) rsb_u32_##name
typedef rsb_u32 set_t;
typedef rsb_u32_run run_t;
#endif

static void made(uint32_t answer) {
    if (answer == RSB_NO_MEMORY) {
        abort();
    }
}

static void make_empty(set_t *set) {
    *set = (set_t)RSB_EMPTY;
}

static void drop(set_t *set) {
    CALL(free)(set);
}

static void insert_range(set_t *set, uint32_t first, uint32_t last) {
    made(CALL(insert_range)(set, first, last));
}

static void remove_range(set_t *set, uint32_t first, uint32_t last) {
    made(CALL(remove_range)(set, first, last));
}

static bool contains(const set_t *set, uint32_t value) {
    return CALL(contains)(set, value);
}

static void make_union(set_t *out, const set_t *left, const set_t *right) {
    make_empty(out);
    made(CALL(union)(out, left, right));
}

static void make_union_of(set_t *out, const set_t *sets, size_t count) {
    const set_t **handles = malloc(count * sizeof *handles);
    if (handles == NULL) {
        abort();
    }
    for (size_t i = 0; i < count; i++) {
        handles[i] = &sets[i];
    }
    make_empty(out);
    made(CALL(union_of)(out, handles, count));
    free(handles);
}

static size_t count_runs(const set_t *set, size_t length) {
    (void)length;
    return CALL(run_count)(set);
}

static void make_intersection(set_t *out, const set_t *left, const set_t *right) {
    make_empty(out);
    made(CALL(intersection)(out, left, right));
}

static void make_difference(set_t *out, const set_t *left, const set_t *right) {
    make_empty(out);
    made(CALL(difference)(out, left, right));
}

static void make_clone(set_t *out, const set_t *set) {
    make_empty(out);
    made(CALL(clone)(out, set));
}

static void digest_runs(const set_t *set, run_digest *digest) {
    run_t run;
    for (bool more = CALL(next_run)(set, 0, &run); more; more = CALL(run_after)(set, run.last, &run)) {
        digest_run(digest, run.first, run.last);
    }
}

static void digest_blocks(const set_t *set, run_digest *digest) {
    enum { MOST = 64 };
    run_t runs[MOST];
    uint32_t next = 0;
    do {
        size_t stored = CALL(runs_in)(set, next, UINT32_MAX, runs, MOST);
        for (size_t i = 0; i < stored; i++) {
            digest_run(digest, runs[i].first, runs[i].last);
        }
        next = stored == MOST ? (uint32_t)runs[MOST - 1].last + 1 : 0;
    } while (next > 0);
}

static void print_version(void) {
    puts(RANGE_SET_VERSION);
}

#ifdef GROWTH
#include "growth.h"
#else
#include "race.h"
#endif
