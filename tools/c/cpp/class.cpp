// The C++ class: each of its members, a set beside itself, and values at both ends.
// Each test runs for all three widths. `text` writes a set as in `1..=5, 10..=20`.
#include "range_set.hpp"

#include "check.hpp"

#include <algorithm>
#include <iterator>
#include <map>
#include <unordered_set>
#include <vector>

template <class Number> static constexpr Number greatest = static_cast<Number>(-1);

// ---- Construct, copy, move.

template <class Set> static void starts_empty() {
    Set a;
    CHECK(a.empty() && a.run_count() == 0 && a.size() == 0 && !a.first() && !a.last());
    CHECK(a == Set() && a.begin() == a.end() && text(a) == "");
}

template <class Set> static void takes_a_list_of_runs() {
    Set a{{10, 20}, {1, 5}, {4, 6}, {9, 8}};
    CHECK(text(a) == "1..=6, 10..=20");
    Set b = {{7, 7}};
    CHECK(text(b) == "7..=7");
    a = {{1, 2}, {4, 5}};
    CHECK(text(a) == "1..=2, 4..=5");
    a = {};
    CHECK(a.empty());
}

template <class Set> static void takes_an_array_of_many_runs() {
    using Number = decltype(Set::run::first);
    std::vector<typename Set::run> runs;
    for (Number i = 0; i < 1'000'003; ++i) {
        Number place = static_cast<Number>(static_cast<std::uint64_t>(i) * 7919 % 1'000'003);
        runs.emplace_back(4000 * place, 4000 * place + 1);
    }
    Set a = Set::from_runs(runs.data(), runs.size());
    CHECK(a.run_count() == runs.size() && a.size() == 2 * runs.size() && a.last() == 4000u * 1'000'002u + 1);
    CHECK(a.remove(4000 * 500'000) && a.insert(4000 * 500'000) && !a.insert(4000 * 500'000, 4000 * 500'000 + 1));
    CHECK(a.remove(2, 4001) && a.run_count() == runs.size() - 1 && (a |= {{4000, 4001}}).run_count() == runs.size());
    CHECK((a - a).empty() && (a & a) == a && (~a).run_count() == runs.size());
    Set none = Set::from_runs(static_cast<typename Set::run *>(nullptr), 0);
    CHECK(none.empty() && (Set::from_runs(runs.data(), 3).run_count() == 3));
    CHECK(std::distance(a.ranges().begin(), a.ranges().end()) == 1'000'003);
}

template <class Set> static Set returned() { return {{1, 5}, {7, 7}}; }

template <class Set> static std::string text_of(const Set &a) { return text(a); }

template <class Set> static void takes_a_list_wherever_a_set_is_expected() {
    CHECK(text(returned<Set>()) == "1..=5, 7..=7" && text_of<Set>({{1, 5}}) == "1..=5");
    Set a({{1, 5}, {7, 7}});
    CHECK(a == returned<Set>() && a.is_superset({{1, 2}, {7, 7}}) && a.is_disjoint(Set{{8, 9}}));
}

template <class Set> static void takes_one_run() {
    typename Set::run five(1, 5);
    Set a(five), b{five}, c({{1, 5}}), d{{1, 5}}, e(1, 5), f(std::make_pair(1, 5));
    CHECK(text(a) == "1..=5" && b == a && c == a && d == a && e == a && f == a && Set(5, 1).empty());
}

template <class Set> static void takes_a_list_of_values() {
    Set a{1, 5}, b{9, 1, 2, 3, 9}, c{{1, 3}, 7, {9, 9}}, d({1, 5}), e{5}, f(5), g = {1, 5};
    CHECK(text(a) == "1..=1, 5..=5" && text(b) == "1..=3, 9..=9" && text(c) == "1..=3, 7..=7, 9..=9");
    CHECK(d == a && g == a && text(e) == "5..=5" && f == e && a.is_superset({1, 5}) && !a.is_superset({1, 2}));
    a = {2, 4};
    CHECK(text(a) == "2..=2, 4..=4");
}

template <class Set> static void takes_runs_and_values_of_containers() {
    std::vector<typename Set::run> runs{{8, 9}, {1, 2}};
    std::map<int, long> pairs{{1, 2}, {8, 9}};
    int values[] = {9, 1, 8, 2, 2};
    Set a(runs), b(runs.begin(), runs.end()), c(pairs), d(values), e(values + 1, values + 3), f(a.gaps());
    CHECK(text(a) == "1..=2, 8..=9" && b == a && c == a && d == a);
    CHECK(text(e) == "1..=1, 8..=8" && f == ~a);
}

static void takes_sets_of_the_other_width() {
    range_set::u32_set a{{1, 5}, {7, 7}}, b(range_set::u64_set{{1, 5}});
    range_set::u64_set c(a);
    CHECK(text(c) == "1..=5, 7..=7" && text(b) == "1..=5" && !c.insert(*a.begin()));
    CHECK(throws<std::out_of_range>([&] { range_set::u32_set made(~c); }));
}

template <class Set> static void copies_only_by_clone() {
    static_assert(!std::is_copy_constructible_v<Set> && !std::is_copy_assignable_v<Set>);
    Set a{{1, 5}};
    Set b = a.clone(), c(range_set::clone, a);
    b.insert(7);
    CHECK(text(a) == "1..=5" && text(b) == "1..=5, 7..=7" && c == a);
}

template <class Set> static void moves_and_leaves_empty() {
    static_assert(std::is_nothrow_move_constructible_v<Set> && std::is_nothrow_move_assignable_v<Set>);
    Set a{{1, 5}}, b{{7, 9}};
    Set c = std::move(a);
    CHECK(text(c) == "1..=5" && a.empty());
    c = std::move(b);
    CHECK(text(c) == "7..=9" && b.empty());
    Set &itself = c;
    c = std::move(itself);
    CHECK(text(c) == "7..=9");
    a = c.clone();
    CHECK(a == c);
}

template <class Set> static void swaps() {
    static_assert(std::is_nothrow_swappable_v<Set>);
    Set a{{1, 5}}, b{{7, 9}};
    swap(a, b);
    CHECK(text(a) == "7..=9" && text(b) == "1..=5");
    a.swap(b);
    a.swap(a);
    CHECK(text(a) == "1..=5" && text(b) == "7..=9");
}

// ---- Change.

template <class Set> static void inserts() {
    Set a;
    CHECK(a.insert(3) && !a.insert(3) && a.insert(5, 9) && !a.insert(6, 8) && !a.insert(9, 5));
    CHECK(a.insert({{11, 12}}) && !a.insert(std::make_pair(11, 12)) && text(a) == "3..=3, 5..=9, 11..=12");
    CHECK(!a.insert(*a.begin()) && a.insert(4) && text(a) == "3..=9, 11..=12");
}

template <class Set> static void removes() {
    Set a{{1, 20}};
    CHECK(a.remove(3) && !a.remove(3) && a.remove(5, 6) && !a.remove(5, 6) && a.remove({{9, 10}}));
    CHECK(a.erase(12) && !a.erase(12) && a.erase(14, 15) && a.erase({{17, 30}}) && !a.erase(8, 7));
    CHECK(text(a) == "1..=2, 4..=4, 7..=8, 11..=11, 13..=13, 16..=16");
    CHECK(a.erase(*a.begin()) && *a.first() == 4);
    a.clear();
    CHECK(a.empty() && !a.remove(4) && a.insert(4));
}

// ---- Set algebra.

template <class Set> static void combines() {
    Set a{{1, 5}, {9, 9}}, b{{4, 20}};
    CHECK(text(a | b) == "1..=20" && text(a & b) == "4..=5, 9..=9" && text(a - b) == "1..=3");
    CHECK(text(a ^ b) == "1..=3, 6..=8, 10..=20" && text(b - a) == "6..=8, 10..=20" && ~~a == a);
    Set c = a.clone();
    CHECK((c |= b) == (a | b) && (c &= a) == a && (c ^= b) == (a ^ b) && (c -= b) == (a - b));
}

template <class Set> static void combines_with_runs_and_values() {
    const Set a{{1, 5}, {9, 9}};
    typename Set::run middle(4, 9);
    CHECK(text(a | middle) == "1..=9" && text(a & middle) == "4..=5, 9..=9" && text(a - middle) == "1..=3");
    CHECK(text(a ^ middle) == "1..=3, 6..=8" && text(a | 6) == "1..=6, 9..=9" && text(a & 9) == "9..=9");
    CHECK(text(a - 9) == "1..=5" && text(a ^ 5) == "1..=4, 9..=9" && text(a | std::make_pair(6, 8)) == "1..=9");
    Set c = a.clone();
    CHECK(text(c |= 7) == "1..=5, 7..=7, 9..=9" && text(c -= {{3, 8}}) == "1..=2, 9..=9");
    CHECK(text(c ^= {{2, 3}}) == "1..=1, 3..=3, 9..=9" && text(c &= middle) == "9..=9" && text(c &= 8) == "");
    CHECK(text(c |= {{1, 5}, {10, 20}}) == "1..=5, 10..=20" && text(c |= {{7, 8}}) == "1..=5, 7..=8, 10..=20");
}

template <class Set> static void combines_with_itself() {
    Set a{{1, 5}, {9, 9}};
    const Set &itself = a;
    CHECK((a | itself) == a && (a & itself) == a && (a - itself).empty() && (a ^ itself).empty());
    a |= itself;
    a &= itself;
    a |= *a.begin();
    CHECK(text(a) == "1..=5, 9..=9");
    a -= itself;
    CHECK(a.empty() && a.insert(3));
    a ^= itself;
    CHECK(a.empty() && a == itself && a <= itself && a.is_subset(itself) && a.is_disjoint(itself));
    a = {{3, 4}};
    CHECK(a == itself && a.order(itself) == 0 && a.is_superset(itself) && !a.is_disjoint(itself));
}

template <class Set> static void combines_any_number() {
    Set a{{1, 5}}, b{{4, 9}}, c{{5, 5}, {9, 12}};
    CHECK(text(Set::union_of({a, b, c})) == "1..=12" && text(Set::intersection_of({a, b, c})) == "5..=5");
    CHECK(text(Set::symmetric_difference_of({a, b, c})) == "1..=3, 5..=8, 10..=12");
    CHECK(text(Set::at_least(2, {a, b, c})) == "4..=5, 9..=9" && Set::at_least(4, {a, b, c}).empty());
    CHECK(Set::union_of({}).empty() && Set::intersection_of({}) == ~Set() && Set::at_least(0, {a}) == ~Set());
    CHECK(Set::union_of({a, a | b}) == (a | b) && Set::at_least(2, {a, a}) == a);
    CHECK(throws<std::out_of_range>([&] { Set::at_least(-1, {a}); }));
    std::vector<Set> sets;
    sets.push_back(a.clone());
    sets.push_back(b.clone());
    CHECK(Set::union_of(sets) == (a | b) && Set::intersection_of(sets) == (a & b));
    a = Set::symmetric_difference_of({a, b, c});
    CHECK(text(a) == "1..=3, 5..=8, 10..=12");
}

template <class Set> static void complements_up_to_both_ends() {
    using Number = decltype(Set::run::first);
    Set all = ~Set();
    CHECK(all.run_count() == 1 && *all.first() == 0 && *all.last() == greatest<Number> && (~all).empty());
    Set ends = all - typename Set::run(Number{1}, greatest<Number> - 1);
    CHECK(ends.run_count() == 2 && ends.contains(0) && ends.contains(greatest<Number>));
}

// ---- Go over a set.

// The first and last values of all runs or gaps, one after the other.
template <class View> static auto ends_of(const View &view) {
    std::vector<decltype(view.begin()->first)> ends;
    for (auto [first, last] : view) {
        ends.push_back(first);
        ends.push_back(last);
    }
    return ends;
}

// What an iterator gives before the end, and that it gives the same on its way back.
template <class Iterator> static auto there_and_back(Iterator from, Iterator to) {
    std::vector<typename Iterator::value_type> there(from, to), back;
    for (Iterator at = to; at != from;) {
        back.push_back(*--at);
    }
    CHECK(std::equal(there.begin(), there.end(), back.rbegin(), back.rend()));
    return there;
}

template <class Set> static void walks_runs() {
    using Number = decltype(Set::run::first);
    using runs = std::vector<typename Set::run>;
    Set a{{0, 2}, {4, 4}, {greatest<Number>, greatest<Number>}};
    CHECK((ends_of(a) == std::vector<Number>{0, 2, 4, 4, greatest<Number>, greatest<Number>}));
    CHECK((there_and_back(a.begin(), a.end()) == runs{{0, 2}, {4, 4}, {greatest<Number>, greatest<Number>}}));
    CHECK((there_and_back(a.rbegin(), a.rend()) == runs{{greatest<Number>, greatest<Number>}, {4, 4}, {0, 2}}));
    CHECK(a.begin()->last == 2 && std::prev(a.end())->first == greatest<Number> && std::next(a.rbegin())->first == 4);
    CHECK(std::make_reverse_iterator(a.end())->first == greatest<Number> && std::distance(a.begin(), a.end()) == 3);
    CHECK(ends_of(a.runs()) == ends_of(a) && !a.runs().empty());
    runs each;
    a.runs([&](const auto &run) { each.push_back(run); });
    CHECK(each == there_and_back(a.begin(), a.end()));
}

template <class Set> static void walks_gaps() {
    using Number = decltype(Set::run::first);
    using gaps = std::vector<typename Set::run>;
    Set a{{1, 2}, {4, 4}};
    CHECK((there_and_back(a.gaps().begin(), a.gaps().end()) == gaps{{0, 0}, {3, 3}, {5, greatest<Number>}}));
    CHECK((there_and_back(a.gaps().rbegin(), a.gaps().rend()) == gaps{{5, greatest<Number>}, {3, 3}, {0, 0}}));
    CHECK(ends_of(a.gaps()) == ends_of(~a) && ends_of((~a).clone()) == ends_of(a.gaps()));
    Set both_ends{{0, 2}, {5, greatest<Number>}};
    CHECK((there_and_back(both_ends.gaps().begin(), both_ends.gaps().end()) == gaps{{3, 4}}));
    Set none, all = ~none;
    CHECK(all.gaps().empty() && all.gaps().rbegin() == all.gaps().rend());
    CHECK((there_and_back(none.gaps().begin(), none.gaps().end()) == gaps{{0, greatest<Number>}}));
}

template <class Set> static void walks_members() {
    using Number = decltype(Set::run::first);
    Set a{{0, 2}, {4, 4}, {greatest<Number> - 1, greatest<Number>}};
    std::vector<Number> expected{0, 1, 2, 4, greatest<Number> - 1, greatest<Number>}, each;
    for (Number member : a.members()) {
        each.push_back(member);
    }
    CHECK(each == expected && there_and_back(a.members().begin(), a.members().end()) == expected);
    std::reverse(each.begin(), each.end());
    CHECK(there_and_back(a.members().rbegin(), a.members().rend()) == each);
    CHECK(std::count(a.members().begin(), a.members().end(), 4) == 1);
    Set none;
    CHECK(none.runs().empty() && none.members().empty() && none.members().rbegin() == none.members().rend());
}

template <class Set> static void walks_runs_while_the_set_changes() {
    Set a{{1, 2}, {4, 6}, {8, 9}, {11, 11}};
    for (auto run : a) {
        if (run.last - run.first == 1) {
            a.erase(run);
        }
    }
    CHECK(text(a) == "4..=6, 11..=11");
}

template <class Set> static void has_iterators_of_the_standard() {
    using iterator = typename Set::iterator;
    using traits = std::iterator_traits<iterator>;
    static_assert(std::is_same_v<typename traits::iterator_category, std::bidirectional_iterator_tag>);
    static_assert(std::is_same_v<typename traits::value_type, typename Set::run>);
    static_assert(std::is_default_constructible_v<iterator> && std::is_copy_assignable_v<iterator>);
    CHECK(iterator() == iterator());
    Set a{{1, 2}, {4, 6}};
    iterator at = a.begin();
    CHECK((*at++ == typename Set::run(1, 2)) && (*at-- == typename Set::run(4, 6)) && at == a.begin());
#if __cplusplus >= 202002L
    static_assert(std::ranges::bidirectional_range<Set>);
    static_assert(std::bidirectional_iterator<typename Set::reverse_iterator>);
    static_assert(std::bidirectional_iterator<decltype(a.gaps().begin())>);
    static_assert(std::bidirectional_iterator<decltype(a.members().begin())>);
    static_assert(std::ranges::view<decltype(a.runs())> && !std::ranges::sized_range<Set>);
    CHECK(std::ranges::distance(a) == 2);
#endif
}

// ---- Ask, count, search.

template <class Set> static void asks_about_values() {
    Set a{{1, 5}, {9, 9}};
    CHECK(a.contains(5) && !a.contains(6) && a.contains(1, 5) && !a.contains(5, 9) && a.contains(7, 6));
    CHECK(a.contains(typename Set::run(2, 3)) && a.is_disjoint(6, 8) && !a.is_disjoint({{8, 9}}) &&
          a.is_disjoint(9, 1));
    CHECK(*a.first() == 1 && *a.last() == 9);
}

template <class Set> static void asks_about_values_that_no_set_has() {
    using Number = decltype(Set::run::first);
    Set a{{0, 5}, {greatest<Number>, greatest<Number>}}, all = ~Set();
    CHECK(!a.contains(-1) && !a.contains(-1ll) && !all.contains(short{-1}) && all.contains(greatest<Number>));
    CHECK(!a.contains(-1, 3) && !a.contains(3, 15) && !all.contains(-3, -2) && !all.contains(-1, 0));
    CHECK(a.contains(3, -1) && a.contains(-1, -2) && a.contains(greatest<Number>, -1));
    CHECK(!a.is_disjoint(-1, 0) && !a.is_disjoint(-9, greatest<Number>) && all.is_disjoint(-9, -2));
    CHECK(all.is_disjoint(3, -1) && all.is_disjoint(-1, -2) && a.is_disjoint(6, 7) && (a - 5).is_disjoint(5, 9));
}

static void asks_about_values_beyond_32_bits() {
    range_set::u32_set a{{0, 5}, {greatest<std::uint32_t>, greatest<std::uint32_t>}};
    CHECK(!a.contains(5'000'000'000) && !a.contains(1ull << 40) && !a.contains(greatest<std::uint32_t>, 1ll << 32));
    CHECK(a.contains(1ull << 40, 3) && a.contains(1ull << 40, 1ll << 33) && !a.contains(1ull << 33, 1ll << 40));
    CHECK(!a.is_disjoint(7, 1ll << 32) && a.is_disjoint(1ll << 32, 1ull << 40) && a.is_disjoint(1ull << 40, -1));
    CHECK(!a.is_disjoint(-1, 1ll << 40) && a.is_disjoint(1ull << 40, 3));
}

template <class Set> static void counts() {
    Set a{{1, 5}, {9, 9}};
    CHECK(a.size() == 6 && a.len() == 6 && a.len(2, 9) == 5 && a.len({6, 8}) == 0 && a.len(9, 2) == 0 && !a.empty());
    CHECK(a.run_count() == 2 && a.rank(9) == 5 && a.rank(0) == 0 && *a.nth(5) == 9 && !a.nth(6));
    CHECK(text(a.len()) == "6");
}

template <class Set> static void searches() {
    using Number = decltype(Set::run::first);
    Set a{{1, 2}, {4, 5}, {9, 9}};
    auto [gap, gap_is_run] = a.run_or_gap(7);
    auto [run, run_is_run] = a.run_or_gap(4);
    CHECK(!gap_is_run && text(gap) == "6..=8" && run_is_run && text(run) == "4..=5");
    CHECK(a.next_run(6)->first == 9 && !a.next_run(10) && a.prev_run(3)->last == 2 && !a.prev_run(0));
    CHECK(a.run_after(1)->first == 4 && !a.run_after(9) && a.run_before(5)->last == 2 && !a.run_before(2));
    CHECK(a.first_gap(2, 2)->first == 6 && a.first_gap(7, 1)->first == 7 && !(~Set()).first_gap(0, 1));
    CHECK(a.first_gap(0, 4)->last == greatest<Number> && !a.first_gap(greatest<Number>, 2));
    CHECK(a.first_run_of(0, 2)->first == 1 && a.first_run_of(2, 2)->first == 4 && !a.first_run_of(0, 3) &&
          !Set().first_run_of(0, 1));
    CHECK(a.first_run()->last == 2 && a.last_run()->first == 9 && !Set().first_run() && !Set().last_run());
    CHECK(a.next_gap(0)->last == 0 && a.next_gap(4)->first == 6 && a.next_gap(9)->last == greatest<Number>);
    CHECK(a.prev_gap(greatest<Number>)->first == 10 && a.prev_gap(5)->first == 3 && a.prev_gap(0)->last == 0);
    CHECK(a.gap_after(0)->first == 3 && a.gap_after(3)->first == 6 && !a.gap_after(10) && a.gap_before(9)->last == 8);
    CHECK(!a.gap_before(0) && !(~Set()).next_gap(7) && !(~Set()).prev_gap(7) && !Set().gap_after(7) &&
          a.is_empty() == a.empty());
    typename Set::run stored[2];
    CHECK(a.runs_in({2, 9}, stored, 2) == 2 && text(stored[0]) == "2..=2" && text(stored[1]) == "4..=5");
    CHECK(a.runs_in({6, greatest<Number>}, stored, 2u) == 1 && text(stored[0]) == "9..=9" &&
          text(stored[1]) == "4..=5");
    CHECK(a.runs_in({9, 2}, stored, 2) == 0 && a.runs_in({0, 9}, nullptr, 0) == 0 && text(stored[0]) == "9..=9");
}

// ---- Compare, hash, write.

template <class Set> static void compares() {
    Set a{{1, 5}}, same{{1, 3}, {4, 5}}, later{{2, 2}};
    CHECK(a == same && !(a != same) && a <= same && a >= same && !(a < same) && !(a > same) && a.order(same) == 0);
    CHECK(a != later && a < later && a <= later && later > a && later >= a && !(later <= a) && a.order(later) < 0);
    const Set &itself = a;
    CHECK(a == itself && a <= itself && !(a < itself) && a.is_subset(itself) && !a.is_disjoint(itself));
    CHECK(later.is_subset(a) && a.is_superset(later) && !a.is_subset(later) && !later.is_superset(a));
    CHECK(!a.is_disjoint(later) && a.is_disjoint(~a) && Set() < a);
}

template <class Set> static void hashes() {
    std::hash<Set> hash;
    CHECK(hash(Set{{1, 5}}) == hash(Set{{1, 3}, {4, 5}}) && hash(Set{{1, 5}}) != hash(Set{{1, 4}}));
    CHECK(hash(Set{{1, 1}, {3, 3}}) != hash(Set{{1, 3}}) && hash(Set()) != hash(Set{{0, 0}}));
    std::unordered_set<Set> sets;
    sets.insert(Set{{1, 5}});
    CHECK(sets.count(Set{{1, 5}}) == 1 && sets.count(Set{{1, 6}}) == 0 && !sets.insert(Set{{1, 5}}).second);
}

template <class Set> static void writes_text() {
    Set a{{1, 5}, {7, 7}, {10, 20}};
    CHECK(text(a) == "1..=5, 7..=7, 10..=20" && text(*a.begin()) == "1..=5");
    std::wostringstream wide;
    wide << a;
    CHECK(wide.str() == L"1..=5, 7..=7, 10..=20");
}

// ---- Arguments.

template <class Set> static void takes_any_integer_type() {
    Set a;
    signed char small = 1;
    CHECK(a.insert(small) && a.insert(2u) && a.insert(3l) && a.insert(4ull) && a.insert(std::uint8_t{5}));
    CHECK(a.contains(1ll, short{5}) && a.erase(std::uint16_t{3}) && text(a) == "1..=2, 4..=5");
    static_assert(noexcept(a.contains(2u)) && noexcept(a.next_run(std::uint8_t{2})) && !noexcept(a.next_run(2)));
    static_assert(noexcept(a.contains(2)) && noexcept(a.contains(2, 3)) && noexcept(a.is_disjoint(2, 3)));
}

template <class Set> static void refuses_values_out_of_range() {
    using error = std::out_of_range;
    Set a{{1, 5}};
    CHECK(throws<error>([&] { a.insert(-1); }) && throws<error>([&] { a.insert(6, -1ll); }));
    CHECK(throws<error>([&] { a.erase(-1); }) && throws<error>([&] { a.remove(short{-1}, 3); }));
    CHECK(throws<error>([&] { a.contains(std::make_pair(-1, 3)); }) && throws<error>([&] { a.insert({{-1, 3}}); }));
    CHECK(throws<error>([&] { a |= -1; }) && throws<error>([&] { Set made{{-2, -1}}; }));
    CHECK(throws<error>([&] { a.rank(-1); }) && throws<error>([&] { a.nth(-1); }));
    CHECK(throws<error>([&] { a.next_run(-1); }) && throws<error>([&] { a.next_gap(-1); }));
    CHECK(throws<error>([&] { a.gap_after(-1); }) && throws<error>([&] { a.first_gap(0, -1); }));
    CHECK(throws<error>([&] { a.runs_in({0, 9}, nullptr, -1); }));
    std::vector<int> values{7, -1};
    CHECK(throws<error>([&] { Set made(values); }) && throws<error>([&] { a = Set(values); }));
    CHECK(text(a) == "1..=5");
}

static void refuses_what_32_bits_cannot_hold() {
    range_set::u32_set a{{1, 5}};
    CHECK(throws<std::out_of_range>([&] { a.insert(1ull << 40); }) &&
          throws<std::out_of_range>([&] { a -= 1ll << 32; }));
    CHECK(a.insert(0xffffffffll) && text(a) == "1..=5, 4294967295..=4294967295");
    CHECK((~range_set::u32_set()).size() == 1ull << 32 && !a.nth(1ull << 40));
}

static void counts_all_64_bit_values() {
    range_set::u64_set all = ~range_set::u64_set();
    CHECK(all.len().high == 1 && all.len().low == 0 && text(all.len()) == "18446744073709551616");
    CHECK(throws<std::overflow_error>([&] { return all.size(); }));
    CHECK(all.len() != 0 && all.len() > 5 && !(all.len() <= 5) && all.len() == all.len(0, greatest<std::uint64_t>));
    CHECK(all.rank(greatest<std::uint64_t>) == greatest<std::uint64_t>);
    CHECK(all.erase(7) && all.size() == greatest<std::uint64_t>);
}

static void has_runs_that_are_values() {
    constexpr range_set::run<std::uint32_t> five(1, 5), none;
    static_assert(five.first == 1 && five.last == 5 && five != none && five == range_set::run<std::uint32_t>(1u, 5u));
    static_assert(std::is_trivially_copyable_v<range_set::run<std::uint64_t>>);
    rsb_u32_run plain = five;
    CHECK(plain.last == 5 && range_set::u32_set(none).empty());
    CHECK((range_set::u32_set{{}, {}}.empty()));
}

template <class Set> static void each_width() {
    starts_empty<Set>();
    takes_a_list_of_runs<Set>();
    takes_a_list_wherever_a_set_is_expected<Set>();
    takes_an_array_of_many_runs<Set>();
    takes_one_run<Set>();
    takes_a_list_of_values<Set>();
    takes_runs_and_values_of_containers<Set>();
    copies_only_by_clone<Set>();
    moves_and_leaves_empty<Set>();
    swaps<Set>();
    inserts<Set>();
    removes<Set>();
    combines<Set>();
    combines_with_runs_and_values<Set>();
    combines_with_itself<Set>();
    combines_any_number<Set>();
    complements_up_to_both_ends<Set>();
    walks_runs<Set>();
    walks_gaps<Set>();
    walks_members<Set>();
    walks_runs_while_the_set_changes<Set>();
    has_iterators_of_the_standard<Set>();
    asks_about_values<Set>();
    asks_about_values_that_no_set_has<Set>();
    counts<Set>();
    searches<Set>();
    compares<Set>();
    hashes<Set>();
    writes_text<Set>();
    takes_any_integer_type<Set>();
    refuses_values_out_of_range<Set>();
}

int main() {
    each_width<range_set::u64_set>();
    each_width<range_set::u32_set>();
    each_width<range_set::u128_set>();
    takes_sets_of_the_other_width();
    refuses_what_32_bits_cannot_hold();
    asks_about_values_beyond_32_bits();
    counts_all_64_bit_values();
    has_runs_that_are_values();
    std::printf("the class answers as the calls do\n");
    return 0;
}
