/* Times sets written as bytes and read back, beside the portable format of CRoaring: bytes and nanoseconds for each run. The
 * workloads are those of race.h, with 100,000 and a million runs. Exits with status 1 if a set is not read as it was. */
#define _POSIX_C_SOURCE 199309L
#include <range_set.h>
#include <roaring/roaring.h>
#include <stdio.h>
#include <stdlib.h>
#include <time.h>

enum { ROUNDS = 5 };

static uint64_t seed = 88172645463325252u;

/* xorshift. */
static uint32_t drawn(uint32_t below) {
    seed ^= seed << 13;
    seed ^= seed >> 7;
    seed ^= seed << 17;
    return (uint32_t)(seed % below);
}

static double now(void) {
    struct timespec time;
    clock_gettime(CLOCK_MONOTONIC, &time);
    return 1e9 * (double)time.tv_sec + (double)time.tv_nsec;
}

static void expect(bool is_so, const char *what) {
    if (!is_so) {
        fprintf(stderr, "bench/c/bytes: %s\n", what);
        exit(1);
    }
}

/* What a library took: its bytes, and the least nanoseconds of a write and of a read. */
typedef struct taken {
    size_t bytes;
    double write, read;
} taken;

static double least(double one, double other) {
    return one < other ? one : other;
}

static taken range_set(const rsb_u32 *set) {
    taken best = {0, 1e18, 1e18};
    size_t capacity = 16 + 10 * rsb_u32_run_count(set), position;
    unsigned char *buffer = malloc(capacity);
    expect(buffer != NULL, "no memory");
    for (int i = 0; i < ROUNDS; i++) {
        rsb_u32 back = RSB_EMPTY;
        uint32_t reason;
        double began = now();
        expect(rsb_u32_to_bytes(set, buffer, capacity, &best.bytes) == RSB_CHANGED, "a set is not written");
        double written = now();
        expect(rsb_u32_from_bytes(&back, buffer, best.bytes, &position, &reason) == RSB_CHANGED, "bytes are not read");
        best.read = least(best.read, now() - written);
        best.write = least(best.write, written - began);
        expect(rsb_u32_equal(&back, set), "a set differs");
        rsb_u32_free(&back);
    }
    free(buffer);
    return best;
}

static taken croaring(const roaring_bitmap_t *set) {
    taken best = {roaring_bitmap_portable_size_in_bytes(set), 1e18, 1e18};
    char *buffer = malloc(best.bytes);
    expect(buffer != NULL, "no memory");
    for (int i = 0; i < ROUNDS; i++) {
        double began = now();
        roaring_bitmap_portable_serialize(set, buffer);
        double written = now();
        roaring_bitmap_t *back = roaring_bitmap_portable_deserialize_safe(buffer, best.bytes);
        best.read = least(best.read, now() - written);
        best.write = least(best.write, written - began);
        expect(back != NULL && roaring_bitmap_equals(back, set), "a set of CRoaring differs");
        roaring_bitmap_free(back);
    }
    free(buffer);
    return best;
}

static void race(const char *name, uint32_t runs, uint32_t apart, uint32_t longest) {
    rsb_u32 set = RSB_EMPTY;
    roaring_bitmap_t *other = roaring_bitmap_create();
    for (uint32_t i = 0; i < runs; i++) {
        uint32_t first = apart * i + drawn(longest), last = first + drawn(longest);
        expect(rsb_u32_insert_range(&set, first, last) != RSB_NO_MEMORY, "no memory");
        roaring_bitmap_add_range_closed(other, first, last);
    }
    roaring_bitmap_run_optimize(other);
    double count = (double)rsb_u32_run_count(&set);
    taken here = range_set(&set), there = croaring(other);
    printf("| %s, %u ranges | %.2f | %.2f | %.1f | %.1f | %.1f | %.1f |\n", name, runs, (double)here.bytes / count,
        (double)there.bytes / count, here.write / count, there.write / count, here.read / count, there.read / count);
    rsb_u32_free(&set);
    roaring_bitmap_free(other);
}

int main(void) {
    puts("| Set | Bytes a run | CRoaring | Write (ns a run) | CRoaring | Read (ns a run) | CRoaring |");
    puts("|---|---|---|---|---|---|---|");
    race("near", 100000, 20, 10);
    race("near", 1000000, 20, 10);
    race("far", 100000, 4000, 100);
    race("far", 1000000, 4000, 100);
    return 0;
}
