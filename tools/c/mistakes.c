/* What a program may get wrong, and what the header still promises then: reversed bounds, a handle that is used after it was
 * freed or freed twice, a fork, too little memory, and a set that passes from thread to thread. */
#define _DEFAULT_SOURCE
#include <range_set.h>
#include <range_set/i32.h>

#include <pthread.h>
#include <stdio.h>
#include <stdlib.h>
#include <string.h>
#include <sys/resource.h>
#include <sys/wait.h>
#include <unistd.h>

#define CHECK(claim)                                                              \
    do {                                                                          \
        if (!(claim)) {                                                           \
            fprintf(stderr, "%s:%d: not so: %s\n", __FILE__, __LINE__, #claim);   \
            exit(1);                                                              \
        }                                                                         \
    } while (0)

/* A range whose last value is below its first one has no values. */
static void reversed(void) {
    rsb_u64 set = RSB_EMPTY;
    rsb_u64_run run = {7, 8};
    const rsb_u64_run runs[] = {{9, 5}, {20, 30}, {UINT64_MAX, 0}};
    CHECK(rsb_u64_insert_range(&set, 9, 5) == RSB_UNCHANGED && rsb_u64_is_empty(&set));
    CHECK(rsb_u64_from_runs(&set, runs, 3) == RSB_CHANGED && rsb_u64_run_count(&set) == 1);
    CHECK(rsb_u64_remove_range(&set, 25, 22) == RSB_UNCHANGED && rsb_u64_len(&set).low == 11);
    CHECK(rsb_u64_contains_range(&set, 25, 22) && rsb_u64_is_disjoint_range(&set, 25, 22));
    CHECK(rsb_u64_len_in(&set, 25, 22).low == 0 && rsb_u64_runs_in(&set, 25, 22, &run, 1) == 0 && run.first == 7);
    CHECK(rsb_u64_from_text(&set, "9..=5", 5) == RSB_CHANGED && rsb_u64_is_empty(&set));
    rsb_u64_free(&set);

    rsb_i32 below = RSB_EMPTY;
    CHECK(rsb_i32_insert_range(&below, 5, -5) == RSB_UNCHANGED && rsb_i32_is_empty(&below));
    CHECK(rsb_i32_insert_range(&below, -5, 5) == RSB_CHANGED && rsb_i32_len(&below) == 11);
    rsb_i32_free(&below);
}

/* A freed handle is the empty set, and so is one of zeros. */
static void freed(void) {
    rsb_u128 set;
    memset(&set, 0, sizeof set);
    rsb_u128_free(&set);
    CHECK(rsb_u128_insert(&set, RSB_U128(1, 0)) == RSB_CHANGED);
    rsb_u128_free(&set);
    rsb_u128_free(&set);
    CHECK(rsb_u128_is_empty(&set) && !rsb_u128_contains(&set, RSB_U128(1, 0)));
    CHECK(rsb_u128_insert(&set, RSB_U128(2, 0)) == RSB_CHANGED && rsb_u128_run_count(&set) == 1);
    rsb_u128_clear(&set);
    rsb_u128_clear(&set);
    rsb_u128_free(&set);
}

/* The child of a process with one thread has a set of its own. */
static void forked(void) {
    rsb_u64 set = RSB_EMPTY;
    CHECK(rsb_u64_insert_range(&set, 1, 5) == RSB_CHANGED);
    pid_t child = fork();
    CHECK(child >= 0);
    if (child == 0) {
        bool good = rsb_u64_insert(&set, 7) == RSB_CHANGED && rsb_u64_run_count(&set) == 2;
        rsb_u64_free(&set);
        _exit(good && rsb_u64_is_empty(&set) ? 0 : 1);
    }
    int status = 1;
    CHECK(waitpid(child, &status, 0) == child && WIFEXITED(status) && WEXITSTATUS(status) == 0);
    CHECK(rsb_u64_run_count(&set) == 1 && rsb_u64_len(&set).low == 5);
    rsb_u64_free(&set);
}

/* A limit on memory is met while a set grows. What it has stays, and there is room again after some of it is gone. */
static void limited(void) {
    pid_t child = fork();
    CHECK(child >= 0);
    if (child == 0) {
        struct rlimit limit = {UINT64_C(1) << 28, UINT64_C(1) << 28};
        rsb_u64 set = RSB_EMPTY, copy = RSB_EMPTY;
        uint64_t count = 0;
        CHECK(setrlimit(RLIMIT_AS, &limit) == 0);
        while (rsb_u64_insert(&set, 2 * count) == RSB_CHANGED) {
            count++;
        }
        CHECK(count > 1000 && rsb_u64_run_count(&set) == count && rsb_u64_len(&set).low == count);
        CHECK(rsb_u64_clone(&copy, &set) == RSB_NO_MEMORY && rsb_u64_is_empty(&copy));
        CHECK(rsb_u64_contains(&set, 2 * count - 2) && !rsb_u64_contains(&set, 2 * count));
        CHECK(rsb_u64_remove_range(&set, 0, 2 * count - 200) == RSB_CHANGED && rsb_u64_run_count(&set) == 99);
        CHECK(rsb_u64_clone(&copy, &set) == RSB_CHANGED && rsb_u64_equal(&copy, &set));
        CHECK(rsb_u64_insert(&set, 2 * count) == RSB_CHANGED);
        _exit(0);
    }
    int status = 1;
    CHECK(waitpid(child, &status, 0) == child && WIFEXITED(status) && WEXITSTATUS(status) == 0);
}

/* Each thread fills the set under a lock, and the last one to end leaves it to the first. */
static pthread_mutex_t lock = PTHREAD_MUTEX_INITIALIZER;
static rsb_u64 shared = RSB_EMPTY;

static void *fills(void *argument) {
    const uint64_t *start = argument;
    for (uint64_t i = 0; i < 2000; i++) {
        CHECK(pthread_mutex_lock(&lock) == 0);
        CHECK(rsb_u64_insert(&shared, *start + 10 * i) == RSB_CHANGED);
        CHECK(pthread_mutex_unlock(&lock) == 0);
    }
    return NULL;
}

static void threaded(void) {
    pthread_t threads[4];
    uint64_t starts[4] = {0, 2, 4, 6};
    for (int i = 0; i < 4; i++) {
        CHECK(pthread_create(&threads[i], NULL, fills, &starts[i]) == 0);
    }
    for (int i = 0; i < 4; i++) {
        CHECK(pthread_join(threads[i], NULL) == 0);
    }
    CHECK(rsb_u64_run_count(&shared) == 8000);
    rsb_u64_free(&shared);
}

int main(void) {
    reversed();
    freed();
    forked();
    limited();
    threaded();
    puts("mistakes have the results that the header states");
    return 0;
}
