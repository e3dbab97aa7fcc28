/* Calls each function on handles that are the same, in each way, and on many sets, and compares what it answers with tables of
 * bits. Each allocation is refused in turn.
 *
 * The linker also sends each export on two or three handles here, by -Wl,--wrap=EXPORT: no export gets one handle twice. */
#include "tables.h"

enum { ROUNDS = 100, MOST = 6 };

/* ---- Exports. */

#if WIDTH == 64
typedef rsb_u64 export_t;
#define REAL(name) __real_rsb_u64_##name
#define WRAP(name) __wrap_rsb_u64_##name
#elif WIDTH == 32
typedef rsb_u32 export_t;
#define REAL(name) __real_rsb_u32_##name
#define WRAP(name) __wrap_rsb_u32_##name
#else
typedef rsb_u128 export_t;
#define REAL(name) __real_rsb_u128_##name
#define WRAP(name) __wrap_rsb_u128_##name
#endif

static unsigned long long passed_on;

#define ON_TWO(result, name, first)                              \
    result REAL(name)(first left, const export_t *right);           \
    result WRAP(name)(first left, const export_t *right) {          \
        CHECK(left != right);                                    \
        passed_on++;                                             \
        return REAL(name)(left, right);                          \
    }

#define ON_THREE(name)                                                            \
    uint32_t REAL(name)(export_t * out, const export_t *left, const export_t *right);      \
    uint32_t WRAP(name)(export_t * out, const export_t *left, const export_t *right) {     \
        CHECK(out != left && out != right && left != right);                      \
        passed_on++;                                                              \
        return REAL(name)(out, left, right);                                      \
    }

ON_TWO(uint32_t, union_with, export_t *)
ON_TWO(uint32_t, intersect_with, export_t *)
ON_TWO(uint32_t, subtract, export_t *)
ON_TWO(uint32_t, xor_with, export_t *)
ON_TWO(uint32_t, clone, export_t *)
ON_TWO(uint32_t, complement, export_t *)
ON_THREE(union)
ON_THREE(intersection)
ON_THREE(difference)
ON_THREE(symmetric_difference)
ON_TWO(bool, equal, const export_t *)
ON_TWO(int32_t, order, const export_t *)
ON_TWO(bool, is_subset, const export_t *)
ON_TWO(bool, is_disjoint, const export_t *)

/* ---- Handles that are the same. */

/* Each call that makes a set of two, with each choice of handles that are the same. */
static void combined_with_itself(set_t *a, table *ta, set_t *b, table *tb) {
    for (size_t kind = 0; kind < COMBINATIONS; kind++) {
        filled(b, tb, drawn(STEPS / 4));
        combined(kind, a, ta, a, ta, b, tb);
        filled(a, ta, drawn(STEPS / 4));
        combined(kind, a, ta, b, tb, a, ta);
        filled(a, ta, drawn(STEPS / 4));
        combined(kind, a, ta, b, tb, b, tb);
        filled(a, ta, drawn(STEPS / 4));
        combined(kind, a, ta, a, ta, a, ta);
        filled(a, ta, drawn(STEPS / 4));
    }
}

/* Each call whose set is its own operand never fails if the result is a set that is at hand. */
static void combined_without_memory(set_t *a, table *ta) {
    static const table none = {{false}};
    long before = asked;
    CHECK(CALL(clone)(a, a) == RSB_CHANGED && CALL(union)(a, a, a) == RSB_CHANGED);
    CHECK(CALL(intersection)(a, a, a) == RSB_CHANGED);
    CHECK(CALL(union_with)(a, a) == RSB_UNCHANGED && CALL(intersect_with)(a, a) == RSB_UNCHANGED);
    CHECK(asked == before);
    same(a, ta);
    CHECK(CALL(difference)(a, a, a) == RSB_CHANGED && CALL(symmetric_difference)(a, a, a) == RSB_CHANGED);
    CHECK(CALL(subtract)(a, a) == RSB_UNCHANGED && CALL(xor_with)(a, a) == RSB_UNCHANGED);
    CHECK(asked == before);
    *ta = none;
    same(a, ta);
}

/* Each call in place on a set that has members and is its own operand. */
static void changed_by_itself(set_t *a, table *ta) {
    for (size_t kind = 0; kind < sizeof changes / sizeof *changes; kind++) {
        filled(a, ta, STEPS / 4);
        compared_with(a, ta, a, ta);
        table next = *ta;
        for (size_t place = 0; place < TABLE; place++) {
            next.has[place] = changes[kind].has(ta->has[place], ta->has[place]);
        }
        long before = asked;
        uint32_t answer = told(changes[kind].call(a, a), before);
        CHECK(answer == (memcmp(&next, ta, sizeof next) ? RSB_CHANGED : RSB_UNCHANGED));
        *ta = next;
        compared_with(a, ta, a, ta);
    }
}

/* A complement of a set in its own place, twice. */
static void complemented_in_place(set_t *a, table *ta) {
    long before = asked;
    if (told(CALL(complement)(a, a), before) == RSB_NO_MEMORY) {
        same(a, ta);
        return;
    }
    for (size_t place = 0; place < TABLE; place++) {
        CHECK(CALL(contains)(a, at(place)) == !ta->has[place]);
    }
    before = asked;
    if (told(CALL(complement)(a, a), before) == RSB_NO_MEMORY) {
        CALL(free)(a);
        *ta = (table){{false}};
    }
    same(a, ta);
}

/* ---- Many sets. */

typedef uint32_t many(set_t *out, const set_t *const *sets, size_t count);

static bool any(size_t deep, size_t count) {
    return deep > 0 && count > 0;
}

static bool all(size_t deep, size_t count) {
    return deep == count;
}

static bool odd(size_t deep, size_t count) {
    return deep % 2 == 1 && count > 0;
}

static const struct {
    many *call;
    bool (*has)(size_t deep, size_t count);
} manies[] = {
    {CALL(union_of), any},
    {CALL(intersection_of), all},
    {CALL(symmetric_difference_of), odd},
};

/* How many of the tables have a place. */
static size_t depth(const table *const *bits, size_t count, size_t place) {
    size_t deep = 0;
    for (size_t i = 0; i < count; i++) {
        deep += bits[i]->has[place];
    }
    return deep;
}

/* `out` has each value of the type. It is then freed, since no table has a bit for each. */
static void emptied(set_t *out, table *made) {
    CHECK(CALL(contains_range)(out, LEAST, GREATEST));
    CALL(free)(out);
    *made = (table){{false}};
}

static void made_of_many(set_t *out, table *made, const set_t *const *sets, const table *const *bits, size_t count) {
    for (size_t kind = 0; kind < sizeof manies / sizeof *manies; kind++) {
        table next;
        for (size_t place = 0; place < TABLE; place++) {
            next.has[place] = manies[kind].has(depth(bits, count, place), count);
        }
        long before = asked;
        uint32_t answer = told(manies[kind].call(out, count > 0 ? sets : NULL, count), before);
        CHECK(answer != RSB_UNCHANGED);
        if (answer == RSB_CHANGED && count == 0 && manies[kind].has == all) {
            emptied(out, made);
        } else if (answer == RSB_CHANGED) {
            *made = next;
        }
        same(out, made);
        filled(out, made, drawn(4));
    }
}

static void made_of_at_least(set_t *out, table *made, const set_t *const *sets, const table *const *bits, size_t count) {
    for (size_t k = 0; k <= count + 1; k++) {
        table next;
        for (size_t place = 0; place < TABLE; place++) {
            next.has[place] = depth(bits, count, place) >= k;
        }
        long before = asked;
        uint32_t answer = told(CALL(at_least)(out, count > 0 ? sets : NULL, count, k), before);
        CHECK(answer != RSB_UNCHANGED);
        if (answer == RSB_CHANGED && k == 0) {
            emptied(out, made);
        } else if (answer == RSB_CHANGED) {
            *made = next;
        }
        same(out, made);
        filled(out, made, drawn(4));
    }
}

/* Sets of many handles, which may be the same, and one of which may be `out`. */
static void made_of_some(set_t *pool, table *bits, size_t sets) {
    const set_t *chosen[MOST];
    const table *tables[MOST];
    size_t count = drawn(MOST + 1);
    for (size_t i = 0; i < count; i++) {
        size_t one = drawn(sets);
        chosen[i] = &pool[one];
        tables[i] = &bits[one];
    }
    made_of_many(&pool[0], &bits[0], chosen, tables, count);
    made_of_at_least(&pool[0], &bits[0], chosen, tables, count);
    for (size_t i = 0; i < sets; i++) {
        same(&pool[i], &bits[i]);
    }
}

/* A list for several calls: it has the sets that were added, as they were then. */
static void listed(set_t *out, table *made, set_t *added, table *ta) {
    list_t list = RSB_EMPTY;
    table bits[MOST];
    const table *tables[MOST];
    size_t count = 0;
    for (size_t i = 0; i < MOST; i++) {
        long before = asked;
        uint32_t answer = told(CALL(sets_add)(&list, added), before);
        CHECK(answer != RSB_UNCHANGED);
        same(added, ta);
        if (answer == RSB_CHANGED) {
            bits[count] = *ta;
            tables[count] = &bits[count];
            count++;
        }
        filled(added, ta, drawn(STEPS / 4));
    }
    for (size_t k = 1; k <= MOST; k++) {
        table next;
        for (size_t place = 0; place < TABLE; place++) {
            next.has[place] = depth(tables, count, place) >= k;
        }
        long before = asked;
        uint32_t answer = told(CALL(sets_at_least)(out, &list, k), before);
        CHECK(answer != RSB_UNCHANGED);
        *made = answer == RSB_CHANGED ? next : *made;
        same(out, made);
    }
    CALL(sets_free)(&list);
    CALL(sets_free)(&list);
}

/* One round, and how many allocations it asked for. */
static long round_of(unsigned long long start, long refused) {
    enum { SETS = 3 };
    seed = start;
    refused_at = refused;
    asked = 0;
    base = drawn_base();
    set_t sets[SETS] = {RSB_EMPTY, RSB_EMPTY, RSB_EMPTY};
    table bits[SETS] = {{{false}}, {{false}}, {{false}}};
    for (size_t i = 0; i < SETS; i++) {
        combined_with_itself(&sets[i], &bits[i], &sets[(i + 1) % SETS], &bits[(i + 1) % SETS]);
        changed_by(&sets[i], &bits[i], &sets[i], &bits[i]);
        compared_with(&sets[i], &bits[i], &sets[i], &bits[i]);
        combined_without_memory(&sets[i], &bits[i]);
        compared_with(&sets[i], &bits[i], &sets[i], &bits[i]);
        filled(&sets[i], &bits[i], drawn(STEPS / 2));
        compared_with(&sets[i], &bits[i], &sets[i], &bits[i]);
        changed_by_itself(&sets[i], &bits[i]);
        complemented_in_place(&sets[i], &bits[i]);
    }
    made_of_some(sets, bits, SETS);
    listed(&sets[0], &bits[0], &sets[1], &bits[1]);
    for (size_t i = 0; i < SETS; i++) {
        CALL(free)(&sets[i]);
    }
    CHECK(held == 0);
    return asked;
}

/* Rows for one set that is not empty, and for lists of one handle. */
static void one_by_itself(void) {
    set_t a = RSB_EMPTY, out = RSB_EMPTY;
    const set_t *const same_handle[] = {&a, &a, &a};
    CHECK(CALL(insert_range)(&a, 5, 9) == RSB_CHANGED && CALL(insert)(&a, GREATEST) == RSB_CHANGED);
    CHECK(CALL(equal)(&a, &a) && CALL(order)(&a, &a) == 0 && CALL(is_subset)(&a, &a) && !CALL(is_disjoint)(&a, &a));
    CHECK(CALL(union_of)(&out, same_handle, 3) == RSB_CHANGED && CALL(equal)(&out, &a));
    CHECK(CALL(intersection_of)(&out, same_handle, 3) == RSB_CHANGED && CALL(equal)(&out, &a));
    CHECK(CALL(symmetric_difference_of)(&out, same_handle, 3) == RSB_CHANGED && CALL(equal)(&out, &a));
    CHECK(CALL(symmetric_difference_of)(&out, same_handle, 2) == RSB_CHANGED && CALL(is_empty)(&out));
    CHECK(CALL(at_least)(&out, same_handle, 3, 3) == RSB_CHANGED && CALL(equal)(&out, &a));
    CHECK(CALL(at_least)(&out, same_handle, 2, 3) == RSB_CHANGED && CALL(is_empty)(&out));
    CHECK(CALL(union_of)(&a, same_handle, 3) == RSB_CHANGED && CALL(run_count)(&a) == 2);
    CHECK(CALL(at_least)(&a, same_handle, 1, 2) == RSB_CHANGED && CALL(is_empty)(&a) && CALL(is_disjoint)(&a, &a));
    CALL(free)(&a);
    CALL(free)(&out);
}

/* A list that begins as zeros, and with nothing in it. */
static void nothing_listed(void) {
    list_t list;
    memset(&list, 0, sizeof list);
    set_t out = RSB_EMPTY;
    CHECK(CALL(insert)(&out, 7) == RSB_CHANGED);
    CHECK(CALL(sets_union)(&out, &list) == RSB_CHANGED && CALL(run_count)(&out) == 0);
    CHECK(CALL(sets_intersection)(&out, &list) == RSB_CHANGED && CALL(contains_range)(&out, LEAST, GREATEST));
    CHECK(CALL(sets_symmetric_difference)(&out, &list) == RSB_CHANGED && CALL(run_count)(&out) == 0);
    CHECK(CALL(sets_at_least)(&out, &list, 0) == RSB_CHANGED && CALL(contains_range)(&out, LEAST, GREATEST));
    CHECK(CALL(sets_at_least)(&out, &list, 1) == RSB_CHANGED && CALL(run_count)(&out) == 0);
    CALL(sets_free)(&list);
    CALL(free)(&out);
}

int main(void) {
    for (unsigned long long start = 1; start <= ROUNDS; start++) {
        long wanted = round_of(start * 2654435761u, 0);
        for (long refused = 1; start <= 2 && refused <= wanted; refused++) {
            round_of(start * 2654435761u, refused);
        }
    }
    CHECK(refusals > 0 && passed_on > 0);
    one_by_itself();
    nothing_listed();
    printf(SIGN "%d: calls on handles that are the same and on many sets agree, %llu allocations refused\n", WIDTH, refusals);
    return 0;
}
