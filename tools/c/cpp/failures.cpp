// Allocations that fail in the calls of the class, for types that the library stores as they are and for
// others.
#include "range_set.hpp"

#include "failures.hpp"

#include <vector>

template <class Set> static void leaves_sets_unchanged_if_an_allocation_fails() {
    Set a{{1, 5}, {10, 20}}, b{{3, 12}, {30, 40}};
    std::vector<typename Set::run> runs(b.begin(), b.end());
    CHECK(failures(a, b, [&] { Set made(range_set::clone, a); }) > 0);
    CHECK(failures(a, b, [&] { Set made{{1, 5}, {10, 20}}; }) > 0);
    CHECK(failures(a, b, [&] { Set made(runs); }) > 0);
    CHECK(failures(a, b, [&] { Set made = a | b; }) > 0);
    CHECK(failures(a, b, [&] { Set made = a & b; }) > 0);
    CHECK(failures(a, b, [&] { Set made = a - b; }) > 0);
    CHECK(failures(a, b, [&] { Set made = a ^ b; }) > 0);
    CHECK(failures(a, b, [&] { Set made = a | a; }) > 0 && failures(a, b, [&] { Set made = a ^ a; }) == 0);
    CHECK(failures(a, b, [&] { Set made = Set::union_of({a, b, a}); }) > 0);
    CHECK(failures(a, b, [&] { Set made = Set::at_least(2, {a, b, a}); }) > 0);
    CHECK(failures(a, b, [&] { Set made = ~a; }) > 0);
    CHECK(failures(a, b, [&] { Set made = a - 3; }) > 0);
    CHECK(failures(a, b, [&] { Set made{1, 5}; }) > 0 && failures(a, b, [&] { Set made(1, 5); }) > 0);
    CHECK(failures(a, b, [&] { Set made = Set::from_runs(runs.data(), 2); }) > 0);
    CHECK(failures(a, b, [&] { Set made(a.values()); }) > 2 &&
          failures(a, b, [&] { Set made = Set::parse("1, 3"); }) > 1);
    const std::vector<unsigned char> bytes = a.to_bytes();
    CHECK(failures(a, b, [&] { a.to_bytes(); }) > 2 && failures(a, b, [&] { Set made = Set::from_bytes(bytes); }) > 0);
}

template <class Set> static void changes_all_or_nothing_if_an_allocation_fails() {
    Set a{{1, 5}, {10, 20}}, b{{3, 12}, {30, 40}};
    const std::vector<int> runs{1, 2, 4};
    failures(a, b, [&] { a |= b; });
    CHECK(text(a) == "1..=20, 30..=40");
    failures(a, b, [&] { a -= b; });
    CHECK(text(a) == "1..=2, 13..=20");
    failures(a, b, [&] { a ^= b; });
    CHECK(text(a) == "1..=20, 30..=40");
    failures(a, b, [&] { a &= b; });
    CHECK(text(a) == "3..=12, 30..=40");
    failures(a, b, [&] { a &= typename Set::run(5, 35); });
    CHECK(text(a) == "5..=12, 30..=35");
    failures(a, b, [&] { a ^= {{10, 31}}; });
    CHECK(text(a) == "5..=9, 13..=29, 32..=35");
    failures(a, b, [&] { a.erase(20); });
    failures(a, b, [&] { a.insert(100, 200); });
    CHECK(text(a) == "5..=9, 13..=19, 21..=29, 32..=35, 100..=200");
    failures(a, b, [&] { a.insert_range(runs); });
    CHECK(text(a) == "1..=2, 4..=9, 13..=19, 21..=29, 32..=35, 100..=200");
    failures(a, b, [&] { a.insert(b); });
    failures(a, b, [&] { a.remove(b); });
    CHECK(text(a) == "1..=2, 13..=19, 21..=29, 100..=200");
    failures(a, b, [&] { a = {{1, 5}}; });
    CHECK(text(a) == "1..=5");
}

// A step of an iterator, and a question, need no memory.
template <class Set> static void reads_without_memory() {
    const Set a{{1, 5}, {10, 20}}, b{{3, 12}};
    typename Set::run stored[2];
    allowed = 0;
    bool agree =
        a.contains(3) && a.find(12)->first == 10 && a.intersects(b) && !(a == b) && a.runs_in({0, 99}, stored, 2) == 2;
    std::size_t steps = 0;
    for (auto value : a.values()) {
        agree = agree && a.contains(value);
        ++steps;
    }
    for (auto run : a) {
        agree = agree && a.contains(run);
    }
    for (auto gap : a.gaps()) {
        agree = agree && a.is_disjoint(gap);
    }
    for (auto run : a.runs_in(3, 11)) {
        steps += run.first == 3 || run.last == 11 ? 1 : 0;
    }
    const std::size_t hash = std::hash<Set>()(a);
    allowed = -1;
    CHECK(agree && steps == 18 && hash != std::hash<Set>()(b));
}

template <class Set> static void each_type() {
    leaves_sets_unchanged_if_an_allocation_fails<Set>();
    changes_all_or_nothing_if_an_allocation_fails<Set>();
    reads_without_memory<Set>();
}

int main() {
    each_type<range_set::u64_set>();
    each_type<range_set::u32_set>();
    each_type<range_set::u128_set>();
    each_type<range_set::i64_set>();
    each_type<range_set::set<short>>();
    each_type<range_set::i128_set>();
    each_type<range_set::set<char32_t>>();
    std::printf("the class throws if an allocation fails, and changes nothing\n");
    return 0;
}
