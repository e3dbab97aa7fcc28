/* A digest of runs, by which the sets of different libraries are compared. Runs that touch count as one. */
#ifndef DIGEST_H
#define DIGEST_H

#include <stdbool.h>
#include <stddef.h>
#include <stdint.h>

typedef struct run_digest {
    uint64_t hash;
    uint64_t first;
    uint64_t last;
    bool is_begun;
} run_digest;

static run_digest digest_begin(void) {
    run_digest digest = {14695981039346656037u, 0, 0, false};
    return digest;
}

static uint64_t digest_end(const run_digest *digest) {
    uint64_t hash = (digest->hash ^ digest->first) * 1099511628211u;
    return digest->is_begun ? (hash ^ digest->last) * 1099511628211u : digest->hash;
}

/* Adds the values from first to last, which are above those before. */
static void digest_run(run_digest *digest, uint64_t first, uint64_t last) {
    if (digest->is_begun && digest->last + 1 == first) {
        digest->last = last;
        return;
    }
    digest->hash = digest_end(digest);
    digest->first = first;
    digest->last = last;
    digest->is_begun = true;
}

#endif
