/* Writes the bytes of sets to files, or reads them: sets (write | read) FOLDER. tools/c/try-bytes calls it. For each kind of
 * ints, these are three sets: runs that lie further and further apart, with the greatest int; all ints; and none. */
#include <range_set.h>
#include <range_set/i128.h>
#include <range_set/i32.h>
#include <range_set/i64.h>

#include <stdio.h>
#include <stdlib.h>
#include <string.h>

static void check(bool is_done, const char *path) {
    if (!is_done) {
        fprintf(stderr, "%s has another set\n", path);
        exit(1);
    }
}

/* Writes bytes to a file, or reads the bytes of a file to a buffer with room for them. Returns their number. */
static size_t transfer(bool writes, const char *path, unsigned char *bytes, size_t size) {
    FILE *file = fopen(path, writes ? "wb" : "rb");
    check(file, path);
    size_t moved = writes ? fwrite(bytes, 1, size, file) : fread(bytes, 1, size, file);
    check(fclose(file) == 0, path);
    return moved;
}

enum { ROOM = 50000 };

/* Defines the functions for a kind of ints. VALUE(n) is the int that is n above the least one. */
#define KIND(kind, VALUE, GREATEST)                                                                                            \
    static void keep_##kind(bool writes, const char *folder, const char *name, const rsb_##kind *set) {                        \
        static unsigned char bytes[ROOM];                                                                                      \
        char path[4096];                                                                                                       \
        size_t size = 0, position;                                                                                             \
        uint32_t reason;                                                                                                       \
        snprintf(path, sizeof path, "%s/%s-%s", folder, #kind, name);                                                          \
        if (writes) {                                                                                                          \
            check(rsb_##kind##_to_bytes(set, bytes, ROOM, &size) == RSB_CHANGED, path);                                        \
            check(transfer(true, path, bytes, size) == size, path);                                                            \
            return;                                                                                                            \
        }                                                                                                                      \
        rsb_##kind read = RSB_EMPTY;                                                                                           \
        size = transfer(false, path, bytes, ROOM);                                                                             \
        check(rsb_##kind##_from_bytes(&read, bytes, size, &position, &reason) == RSB_CHANGED, path);                           \
        check(rsb_##kind##_equal(&read, set), path);                                                                           \
        rsb_##kind##_free(&read);                                                                                              \
    }                                                                                                                          \
                                                                                                                               \
    static void keep_all_##kind(bool writes, const char *folder) {                                                             \
        rsb_##kind all = RSB_EMPTY, spread = RSB_EMPTY, none = RSB_EMPTY;                                                      \
        bool is_done = rsb_##kind##_insert_range(&all, VALUE(0), GREATEST) == RSB_CHANGED                                      \
                       && rsb_##kind##_insert_range(&spread, GREATEST, GREATEST) == RSB_CHANGED;                               \
        for (uint32_t at = 0; at < 1000; at++) {                                                                               \
            uint32_t first = 1000 * at * at;                                                                                   \
            is_done = is_done                                                                                                  \
                      && rsb_##kind##_insert_range(&spread, VALUE(first), VALUE(first + 7 * at)) != RSB_NO_MEMORY;             \
        }                                                                                                                      \
        check(is_done, folder);                                                                                                \
        keep_##kind(writes, folder, "spread", &spread);                                                                        \
        keep_##kind(writes, folder, "all", &all);                                                                              \
        keep_##kind(writes, folder, "none", &none);                                                                            \
        rsb_##kind##_free(&all);                                                                                               \
        rsb_##kind##_free(&spread);                                                                                            \
    }

#define UNSIGNED(n) (n)
#define SIGNED_32(n) ((int32_t)(INT32_MIN + (int64_t)(n)))
#define SIGNED_64(n) (INT64_MIN + (int64_t)(n))
#define WIDE(n) RSB_U128(0, (n))
#define SIGNED_WIDE(n) RSB_I128(INT64_MIN, (n))
KIND(u32, UNSIGNED, UINT32_MAX)
KIND(i32, SIGNED_32, INT32_MAX)
KIND(u64, UNSIGNED, UINT64_MAX)
KIND(i64, SIGNED_64, INT64_MAX)
KIND(u128, WIDE, RSB_U128_MAX)
KIND(i128, SIGNED_WIDE, RSB_I128_MAX)

int main(int count, char **arguments) {
    check(count == 3, "the call");
    bool writes = strcmp(arguments[1], "write") == 0;
    const char *folder = arguments[2];
    keep_all_u32(writes, folder);
    keep_all_i32(writes, folder);
    keep_all_u64(writes, folder);
    keep_all_i64(writes, folder);
    keep_all_u128(writes, folder);
    keep_all_i128(writes, folder);
    return 0;
}
