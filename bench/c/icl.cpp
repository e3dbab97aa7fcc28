// The programs for Boost.ICL. They have sets of 32 bits, or with -DWIDTH=64 of 64 bits.
#include "digest.h"

#include <boost/icl/interval_set.hpp>
#include <boost/version.hpp>
#include <cstdio>
#include <new>

#if WIDTH == 64
using value = std::uint64_t;
#else
using value = std::uint32_t;
#endif
using interval = boost::icl::closed_interval<value>;
using set_t = boost::icl::interval_set<value, std::less, interval>;

static void make_empty(set_t *set) {
    new (set) set_t;
}

static void drop(set_t *set) {
    set->clear();
}

static void insert_range(set_t *set, uint32_t first, uint32_t last) {
    set->add(interval(first, last));
}

static void remove_range(set_t *set, uint32_t first, uint32_t last) {
    set->subtract(interval(first, last));
}

static bool contains(const set_t *set, uint32_t value) {
    return boost::icl::contains(*set, value);
}

static void make_union(set_t *out, const set_t *left, const set_t *right) {
    *out = *left + *right;
}

static void make_union_of(set_t *out, const set_t *sets, size_t count) {
    make_empty(out);
    for (size_t i = 0; i < count; i++) {
        *out += sets[i];
    }
}

static size_t count_runs(const set_t *set, size_t) {
    return set->iterative_size();
}

static void make_intersection(set_t *out, const set_t *left, const set_t *right) {
    *out = *left & *right;
}

static void make_difference(set_t *out, const set_t *left, const set_t *right) {
    *out = *left - *right;
}

static void make_clone(set_t *out, const set_t *set) {
    *out = *set;
}

static void digest_runs(const set_t *set, run_digest *digest) {
    for (const interval &run : *set) {
        digest_run(digest, boost::icl::first(run), boost::icl::last(run));
    }
}

static void digest_blocks(const set_t *set, run_digest *digest) {
    digest_runs(set, digest);
}

static void print_version() {
    std::puts(BOOST_LIB_VERSION);
}

#ifdef GROWTH
#include "growth.h"
#else
#include "race.h"
#endif
