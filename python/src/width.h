/* The calls of one width, behind one table. widths.c includes this for each width, with these names:
 *
 *   BITS              the width
 *   NUMBER            the type of values in C
 *   NARROW(rank)      the value of a rank
 *   WIDE(value)       the rank of a value
 *   COUNT, COUNTED    the type of a number of members, and such a number as a `count`
 *   INDEX, PLACE(n)   the type of an index or a length, and such a number */

#define JOIN(start, bits, end) start##bits##end
#define JOINED(start, bits, end) JOIN(start, bits, end)
#define RSB(name) JOINED(rsb_u, BITS, _##name)
#define OWN(name) JOINED(u, BITS, _##name)
#define SET(it) (&(it)->JOINED(u, BITS, ))

typedef RSB(run) OWN(run);

static void OWN(put)(void *runs, size_t at, span run) {
    ((OWN(run) *)runs)[at] = (OWN(run)){NARROW(run.first), NARROW(run.last)};
}

static span OWN(span)(OWN(run) run) {
    return (span){WIDE(run.first), WIDE(run.last)};
}

static uint32_t OWN(insert_range)(handle *set, wide first, wide last) {
    return RSB(insert_range)(SET(set), NARROW(first), NARROW(last));
}

static uint32_t OWN(remove_range)(handle *set, wide first, wide last) {
    return RSB(remove_range)(SET(set), NARROW(first), NARROW(last));
}

static void OWN(clear)(handle *set) {
    RSB(clear)(SET(set));
}

static void OWN(free)(handle *set) {
    RSB(free)(SET(set));
}

static bool OWN(contains)(const handle *set, wide value) {
    return RSB(contains)(SET(set), NARROW(value));
}

static bool OWN(contains_range)(const handle *set, wide first, wide last) {
    return RSB(contains_range)(SET(set), NARROW(first), NARROW(last));
}

static count OWN(len)(const handle *set) {
    COUNT number = RSB(len)(SET(set));
    return COUNTED(number);
}

static count OWN(len_in)(const handle *set, wide first, wide last) {
    COUNT number = RSB(len_in)(SET(set), NARROW(first), NARROW(last));
    return COUNTED(number);
}

static count OWN(rank)(const handle *set, wide value) {
    COUNT number = RSB(rank)(SET(set), NARROW(value));
    return COUNTED(number);
}

static bool OWN(nth)(const handle *set, wide n, wide *value) {
    NUMBER found;
    if (n > WIDE(PLACE(~(wide)0)) || !RSB(nth)(SET(set), PLACE(n), &found)) {
        return false;
    }
    *value = WIDE(found);
    return true;
}

static size_t OWN(run_count)(const handle *set) {
    return RSB(run_count)(SET(set));
}

/* A call that stores a run or a gap. */
#define STORES(name)                                                                                                           \
    static bool OWN(name)(const handle *set, wide value, span *out) {                                                          \
        OWN(run) block = {NARROW(0), NARROW(0)};                                                                               \
        bool found = RSB(name)(SET(set), NARROW(value), &block);                                                               \
        *out = OWN(span)(block);                                                                                               \
        return found;                                                                                                          \
    }
STORES(run_or_gap)
STORES(next_run)
STORES(prev_run)
STORES(run_after)
STORES(run_before)
#undef STORES

static size_t OWN(runs_in)(const handle *set, wide first, wide last, span out[BLOCK]) {
    OWN(run) runs[BLOCK];
    size_t stored = RSB(runs_in)(SET(set), NARROW(first), NARROW(last), runs, BLOCK);
    for (size_t at = 0; at < stored; at++) {
        out[at] = OWN(span)(runs[at]);
    }
    return stored;
}

/* A call that looks for a length. */
#define FINDS(name)                                                                                                            \
    static bool OWN(name)(const handle *set, wide from, wide length, span *out) {                                              \
        OWN(run) block;                                                                                                        \
        if (!RSB(name)(SET(set), NARROW(from), PLACE(length), &block)) {                                                       \
            return false;                                                                                                      \
        }                                                                                                                      \
        *out = OWN(span)(block);                                                                                               \
        return true;                                                                                                           \
    }
FINDS(first_gap)
FINDS(first_run_of)
#undef FINDS

#define COMBINES(name)                                                                                                         \
    static uint32_t OWN(name)(handle *out, const handle *left, const handle *right) {                                          \
        return RSB(name)(SET(out), SET(left), SET(right));                                                                     \
    }
COMBINES(union)
COMBINES(intersection)
COMBINES(difference)
COMBINES(symmetric_difference)
#undef COMBINES

#define OF_TWO(result, name, changed)                                                                                          \
    static result OWN(name)(changed handle *one, const handle *other) {                                                        \
        return RSB(name)(SET(one), SET(other));                                                                                \
    }
OF_TWO(uint32_t, union_with, )
OF_TWO(uint32_t, intersect_with, )
OF_TWO(uint32_t, subtract, )
OF_TWO(uint32_t, xor_with, )
OF_TWO(uint32_t, complement, )
OF_TWO(uint32_t, clone, )
OF_TWO(bool, equal, const)
OF_TWO(bool, is_subset, const)
OF_TWO(bool, is_disjoint, const)
OF_TWO(int32_t, order, const)
#undef OF_TWO

static uint32_t OWN(from_runs)(handle *out, const void *runs, size_t number) {
    return RSB(from_runs)(SET(out), runs, number);
}

static uint32_t OWN(to_bytes)(const handle *set, unsigned char *buffer, size_t capacity, size_t *length) {
    return RSB(to_bytes)(SET(set), buffer, capacity, length);
}

static uint32_t OWN(from_bytes)(handle *out, const unsigned char *bytes, size_t length, size_t *position, uint32_t *reason) {
    return RSB(from_bytes)(SET(out), bytes, length, position, reason);
}

static uint32_t OWN(sets_add)(handles *list, const handle *set) {
    return RSB(sets_add)(SET(list), SET(set));
}

#define OF_MANY(name)                                                                                                          \
    static uint32_t OWN(name)(handle *out, const handles *list) {                                                              \
        return RSB(name)(SET(out), SET(list));                                                                                 \
    }
OF_MANY(sets_union)
OF_MANY(sets_intersection)
OF_MANY(sets_symmetric_difference)
#undef OF_MANY

static uint32_t OWN(at_least)(handle *out, const handles *list, size_t k) {
    return RSB(sets_at_least)(SET(out), SET(list), k);
}

static void OWN(sets_free)(handles *list) {
    RSB(sets_free)(SET(list));
}

static const calls OWN(calls) = {
    .bits = BITS,
    .greatest = ~(wide)0 >> (128 - BITS),
    .run_size = sizeof(OWN(run)),
    .put = OWN(put),
    .insert_range = OWN(insert_range),
    .remove_range = OWN(remove_range),
    .clear = OWN(clear),
    .free = OWN(free),
    .contains = OWN(contains),
    .contains_range = OWN(contains_range),
    .len = OWN(len),
    .len_in = OWN(len_in),
    .rank = OWN(rank),
    .nth = OWN(nth),
    .run_count = OWN(run_count),
    .run_or_gap = OWN(run_or_gap),
    .next_run = OWN(next_run),
    .prev_run = OWN(prev_run),
    .run_after = OWN(run_after),
    .run_before = OWN(run_before),
    .runs_in = OWN(runs_in),
    .first_gap = OWN(first_gap),
    .first_run_of = OWN(first_run_of),
    .combine = {OWN(union), OWN(intersection), OWN(difference), OWN(symmetric_difference)},
    .change = {OWN(union_with), OWN(intersect_with), OWN(subtract), OWN(xor_with)},
    .complement = OWN(complement),
    .clone = OWN(clone),
    .from_runs = OWN(from_runs),
    .to_bytes = OWN(to_bytes),
    .from_bytes = OWN(from_bytes),
    .equal = OWN(equal),
    .is_subset = OWN(is_subset),
    .is_disjoint = OWN(is_disjoint),
    .order = OWN(order),
    .sets_add = OWN(sets_add),
    .combine_many = {OWN(sets_union), OWN(sets_intersection), NULL, OWN(sets_symmetric_difference)},
    .at_least = OWN(at_least),
    .sets_free = OWN(sets_free),
};

#undef JOIN
#undef JOINED
#undef RSB
#undef OWN
#undef SET
