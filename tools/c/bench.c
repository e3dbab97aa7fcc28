/* The nanoseconds of a call, at 100,000 runs. bench.rs has the same loops in Rust. */
#define _POSIX_C_SOURCE 199309L
#include "range_set.h"

#include <stdio.h>
#include <time.h>

enum { RUNS = 100000, CALLS = 1000000 };

static uint64_t seed = 88172645463325252u;

static uint64_t drawn(void) {
    seed ^= seed << 13;
    seed ^= seed >> 7;
    seed ^= seed << 17;
    return seed % (20u * RUNS);
}

static double now(void) {
    struct timespec time;
    clock_gettime(CLOCK_MONOTONIC, &time);
    return 1e9 * (double)time.tv_sec + (double)time.tv_nsec;
}

int main(void) {
    double insert = 1e18, contains = 1e18, walk = 1e18;
    uint64_t members = 0;
    for (int round = 0; round < 5; round++) {
        rsb_u64 set = RSB_EMPTY;
        double began = now();
        for (uint64_t i = 0; i < RUNS; i++) {
            if (rsb_u64_insert_range(&set, 20 * i, 20 * i + 9) != RSB_CHANGED) {
                return 1;
            }
        }
        double filled = now();
        for (int i = 0; i < CALLS; i++) {
            members += rsb_u64_contains(&set, drawn());
        }
        double asked = now();
        rsb_u64_run run;
        for (bool more = rsb_u64_next_run(&set, 0, &run); more; more = rsb_u64_run_after(&set, run.last, &run)) {
            members += run.last;
        }
        double walked = now();
        rsb_u64_free(&set);
        insert = (filled - began) / RUNS < insert ? (filled - began) / RUNS : insert;
        contains = (asked - filled) / CALLS < contains ? (asked - filled) / CALLS : contains;
        walk = (walked - asked) / RUNS < walk ? (walked - asked) / RUNS : walk;
    }
    printf("c     insert_range %6.1f ns  contains %6.1f ns  run_after %6.1f ns  (%llu)\n", insert, contains, walk,
        (unsigned long long)members);
    return 0;
}
