/* Four threads read one set, while each fills one of its own. For the thread sanitizer. */
#include "range_set.h"

#include <pthread.h>
#include <stdio.h>
#include <stdlib.h>

enum { RUNS = 5000, THREADS = 4 };

#define CHECK(claim)                                                                  \
    do {                                                                              \
        if (!(claim)) {                                                               \
            fprintf(stderr, "%s:%d: not so: %s\n", __FILE__, __LINE__, #claim);       \
            exit(1);                                                                  \
        }                                                                             \
    } while (0)

static void *reads(void *argument) {
    const rsb_u64 *shared = argument;
    rsb_u64 own = RSB_EMPTY;
    for (uint64_t value = 0; value < 20 * RUNS; value++) {
        bool member = rsb_u64_contains(shared, value);
        CHECK(member == (value % 20 < 10));
        CHECK(!member || rsb_u64_insert(&own, value) == RSB_CHANGED);
    }
    CHECK(rsb_u64_equal(&own, shared));
    rsb_u64_free(&own);
    return NULL;
}

int main(void) {
    rsb_u64 set = RSB_EMPTY;
    for (uint64_t start = 0; start < 20 * RUNS; start += 20) {
        CHECK(rsb_u64_insert_range(&set, start, start + 9) == RSB_CHANGED);
    }
    pthread_t threads[THREADS];
    for (int i = 0; i < THREADS; i++) {
        CHECK(pthread_create(&threads[i], NULL, reads, &set) == 0);
    }
    for (int i = 0; i < THREADS; i++) {
        CHECK(pthread_join(threads[i], NULL) == 0);
    }
    rsb_u64_free(&set);
    printf("%d threads read one set\n", THREADS);
    return 0;
}
