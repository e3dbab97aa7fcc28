/* The programs for CRoaring. It has no call that gives runs, so a walk reads all members, and joins them. */
#define _POSIX_C_SOURCE 199309L
#include "digest.h"

#include <roaring/roaring.h>
#include <stdio.h>
#include <stdlib.h>

typedef roaring_bitmap_t *set_t;

/* What a call made. It is null if an allocation failed. */
static roaring_bitmap_t *made(roaring_bitmap_t *set) {
    if (set == NULL) {
        abort();
    }
    return set;
}

static void make_empty(set_t *set) {
    *set = made(roaring_bitmap_create());
}

static void drop(set_t *set) {
    roaring_bitmap_free(*set);
}

static void insert_range(set_t *set, uint32_t first, uint32_t last) {
    roaring_bitmap_add_range_closed(*set, first, last);
}

static void remove_range(set_t *set, uint32_t first, uint32_t last) {
    roaring_bitmap_remove_range_closed(*set, first, last);
}

static bool contains(const set_t *set, uint32_t value) {
    return roaring_bitmap_contains(*set, value);
}

static void make_union(set_t *out, const set_t *left, const set_t *right) {
    *out = made(roaring_bitmap_or(*left, *right));
}

static void make_union_of(set_t *out, const set_t *sets, size_t count) {
    const roaring_bitmap_t **pointers = malloc(count * sizeof *pointers);
    if (pointers == NULL) {
        abort();
    }
    for (size_t i = 0; i < count; i++) {
        pointers[i] = sets[i];
    }
    *out = made(roaring_bitmap_or_many(count, pointers));
    free(pointers);
}

static size_t count_runs(const set_t *set, size_t length) {
    return roaring_bitmap_get_cardinality(*set) / length;
}

static void make_intersection(set_t *out, const set_t *left, const set_t *right) {
    *out = made(roaring_bitmap_and(*left, *right));
}

static void make_difference(set_t *out, const set_t *left, const set_t *right) {
    *out = made(roaring_bitmap_andnot(*left, *right));
}

static void make_clone(set_t *out, const set_t *set) {
    *out = made(roaring_bitmap_copy(*set));
}

static bool digest_member(uint32_t value, void *to) {
    digest_run((run_digest *)to, value, value);
    return true;
}

static void digest_runs(const set_t *set, run_digest *digest) {
    roaring_iterate(*set, digest_member, digest);
}

static void digest_blocks(const set_t *set, run_digest *digest) {
    digest_runs(set, digest);
}

static void print_version(void) {
    printf("%d.%d.%d\n", ROARING_VERSION_MAJOR, ROARING_VERSION_MINOR, ROARING_VERSION_REVISION);
}

#ifdef GROWTH
#include "growth.h"
#else
#include "race.h"
#endif
