// The views of a set in algorithms, and in the ranges of C++20.
#include "types.hpp"

#include "check.hpp"

#include <algorithm>
#include <numeric>
#include <vector>
#if __cplusplus >= 202002L
#include <ranges>
#endif

using range_set::set;

static void serve_algorithms() {
    const set<int> a{{-3, 1}, 7, {10, 12}};
    const auto values = a.values();
    CHECK(std::accumulate(values.begin(), values.end(), 0) == -5 + 7 + 33 &&
          std::count(values.begin(), values.end(), 7) == 1);
    const auto longest = std::max_element(
        a.begin(), a.end(), [](auto left, auto right) { return left.last - left.first < right.last - right.first; });
    CHECK(longest->first == -3 && a.runs().size() == 3 && a.gaps().size() == 4 && a.values().size() == 9);
    CHECK(std::vector<int>(values.rbegin(), values.rend()).front() == 12 &&
          text(*std::prev(a.gaps().end())) == "13..=2147483647");
}

static void give_windows() {
    const set<int> a{{-3, 1}, 7, {10, 12}};
    CHECK(text(set<int>(a.runs_in(0, 10))) == "0..=1, 7..=7, 10..=10" && a.runs_in(2, 6).empty() &&
          a.runs_in(11, 3).empty());
    const auto window = a.runs_in({-9, 7});
    CHECK(window.begin()->first == -3 && window.rbegin()->last == 7 &&
          std::distance(window.begin(), window.end()) == 2);
    range_set::run<int> stored[3];
    CHECK(a.runs_in({0, 99}, stored, 3) == 3 && text(stored[0]) == "0..=1" && text(stored[2]) == "10..=12");
    std::vector<range_set::run<short>> many(1000);
    set<short> odd;
    for (short value = 1; value < 1000; value = static_cast<short>(value + 2)) {
        odd.insert(value);
    }
    CHECK(odd.runs_in({0, 999}, many.data(), many.size()) == 500 && many[499].first == 999 &&
          odd.runs_in({5, 132}, many.data(), 64) == 64);
    CHECK(many[63].first == 131 && odd.runs_in({5, 134}, many.data(), 1000) == 65 && many[64].last == 133);
}

static void find_runs() {
    const set<int> a{{-3, 1}, 7, {10, 12}};
    CHECK(a.find(0)->first == -3 && a.find(2) == a.end() && a.find(-1099511627776ll) == a.end());
    CHECK(a.lower_bound(7)->first == 7 && a.upper_bound(7)->first == 10 && a.lower_bound(13) == a.end() &&
          a.upper_bound(10) == a.end());
    CHECK(a.lower_bound(-1099511627776ll) == a.begin() && a.upper_bound(1ll << 40) == a.end());
    int meets = 0;
    for (auto run = a.lower_bound(1), end = a.upper_bound(10); run != end; ++run) {
        ++meets;
    }
    CHECK(meets == 3);
}

static void erase_runs_by_iterators() {
    set<int> a{{-3, 1}, 7, {10, 12}};
    auto at = a.erase(a.begin());
    CHECK(at->first == 7 && a.erase(a.find(11)) == a.end() && text(a) == "7..=7");
    CHECK(a.erase(at) == a.end() && a.empty());
}

static void take_ranges_of_values_and_runs() {
    const std::vector<std::pair<int, int>> pairs{{10, 12}, {-3, 1}};
    const std::vector<int> values{7, 8, 3, 7};
    set<int> a(pairs);
    CHECK(a.insert_range(values) && !a.insert(values.begin(), values.end()) &&
          text(a) == "-3..=1, 3..=3, 7..=8, 10..=12");
    CHECK(a.insert(values.begin() + 1, values.end()) == false &&
          set<int>::from_runs(pairs) == set<int>(pairs.begin(), pairs.end()));
    std::vector<int> many(100'000);
    std::iota(many.begin(), many.end(), -50'000);
    CHECK(set<int>(many).run_count() == 1 && set<long>(many.rbegin(), many.rend()).size() == many.size());
}

#if __cplusplus >= 202002L
template <class View> static constexpr bool is_view = std::ranges::view<View> &&std::ranges::bidirectional_range<View>
    &&std::ranges::common_range<View> &&std::ranges::borrowed_range<View>;

static void are_views() {
    using Set = set<int>;
    static_assert(is_view<decltype(std::declval<const Set &>().runs())> &&
                  is_view<decltype(std::declval<const Set &>().gaps())>);
    static_assert(is_view<decltype(std::declval<const Set &>().values())> &&
                  is_view<decltype(std::declval<const Set &>().runs_in(1, 2))>);
    static_assert(std::ranges::sized_range<decltype(std::declval<const Set &>().runs())> &&
                  !std::ranges::sized_range<Set>);
    static_assert(!std::ranges::sized_range<decltype(std::declval<const Set &>().runs_in(1, 2))>);
    const Set a{{-3, 1}, 7, {10, 12}};
    CHECK(std::ranges::distance(a) == 3 && std::ranges::size(a.values()) == 9 &&
          std::ranges::find(a.values(), 7) != a.values().end());
}

// clang before 16 does not compile these views of libstdc++.
#if !defined(__clang__) || __clang_major__ >= 16
static void go_through_pipes() {
    const set<int> a{{-3, 1}, 7, {10, 12}};
    const auto is_even = [](int value) { return value % 2 == 0; };
    std::vector<int> found;
    for (const int value : a.values() | std::views::filter(is_even) | std::views::take(3)) {
        found.push_back(value);
    }
    CHECK((found == std::vector<int>{-2, 0, 10}));
    const auto lengths = a.runs() | std::views::transform([](auto run) { return run.last - run.first + 1; });
    CHECK(std::ranges::max(lengths) == 5 && *(a.gaps() | std::views::reverse).begin() == *a.gaps().rbegin());
    const set<int> squares(std::views::iota(1, 5) | std::views::transform([](int value) { return value * value; }));
    CHECK(text(squares) == "1..=1, 4..=4, 9..=9, 16..=16" && set<long>(std::views::iota(-5, 5)).run_count() == 1);
    CHECK(text(set<int>(a.values() | std::views::drop_while([](int value) { return value < 10; }))) == "10..=12");
}
#endif
#endif

int main() {
    serve_algorithms();
    give_windows();
    find_runs();
    erase_runs_by_iterators();
    take_ranges_of_values_and_runs();
#if __cplusplus >= 202002L
    are_views();
#if !defined(__clang__) || __clang_major__ >= 16
    go_through_pipes();
#endif
#endif
    std::printf("views of sets serve algorithms and ranges\n");
    return 0;
}
