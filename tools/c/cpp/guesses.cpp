// Programs and lines that a C++ user writes without reading the header: each compiles, and does what it
// says. Those that must not compile are in tools/c/cpp/refused.
#include "range_set.hpp"

#include "check.hpp"

#include <algorithm>
#include <iostream>
#include <limits>
#include <set>
#include <string>
#include <utility>
#include <vector>

using Set = range_set::u64_set;

// ---- Programs.

// The letters of identifiers, as a lexer keeps them.
static void program_with_character_classes() {
    const range_set::set<char32_t> digits{{U'0', U'9'}},
        letters{{U'a', U'z'}, {U'A', U'Z'}, U'_', {U'\u00c0', U'\u024f'}};
    const auto words = letters | digits;
    CHECK(words.contains(U'\u00e9') && words.contains(U'7') && !words.contains(U' ') && !digits.contains(U'x'));
    std::u32string found;
    for (const char32_t c : U"x\u00e9_1 + 2") {
        if (words.contains(c)) {
            found += c;
        }
    }
    CHECK(found == U"x\u00e9_12" && words.runs().size() == 5 && words.size() == 26 + 26 + 1 + 10 + 0x190);
    CHECK((~words).intersects(words) == false && words.count(U'_') == 1);
}

// The free pages of a file, by the names of std::set.
static void program_with_free_pages() {
    range_set::u32_set free_pages{{1, 99}};
    const auto take = [&](std::uint32_t pages) {
        const auto room = free_pages.first_run_of(1, pages);
        if (!room) {
            return std::uint32_t{0};
        }
        free_pages.erase(room->first, room->first + pages - 1);
        return room->first;
    };
    CHECK(take(10) == 1 && take(5) == 11 && free_pages.front() == 16 && free_pages.back() == 99 &&
          free_pages.size() == 84);
    CHECK(free_pages.find(3) == free_pages.end() && free_pages.find(20)->first == 16 && free_pages.count(20) == 1);
    free_pages.insert(1, 10);
    CHECK(free_pages.runs().size() == 2 && take(20) == 16 && take(200) == 0 && free_pages.lower_bound(11)->first == 36);
    CHECK(!free_pages.intersects({{11, 35}}) && std::is_sorted(free_pages.values().begin(), free_pages.values().end()));
    free_pages.clear();
    CHECK(free_pages.empty());
}

// Temperatures and offsets, which may be negative.
static void program_with_negative_values() {
    range_set::set<std::int64_t> below{{-40, -1}}, mild = {{-5, 25}};
    const range_set::set<std::int32_t> exact{-273, 0, 100};
    mild.insert(-10);
    CHECK(text(below & mild) == "-10..=-10, -5..=-1" && text(below - mild) == "-40..=-11, -9..=-6" &&
          below.contains(-40));
    CHECK(exact.size() == 3 && exact.front() == -273 && !exact.contains(-1) &&
          text(exact) == "-273..=-273, 0..=0, 100..=100");
    for (std::int64_t value : mild.values()) {
        CHECK(value >= -10 && value <= 25);
    }
    std::int64_t least = 0;
    std::cout << "mild: " << mild << '\n';
    for (auto [first, last] : ~mild) {
        least = std::min(least, first <= last ? first : last);
    }
    CHECK(least == std::numeric_limits<std::int64_t>::min());
}

// ---- Lines.

static void makes_sets() {
    Set a{{1, 5}, {10, 20}};
    CHECK(text(a) == "1..=5, 10..=20");
    Set b = a.clone();
    CHECK(b == a);
    Set c = std::move(b);
    CHECK(c == a);
    std::vector<Set> v(3);
    v.push_back(a.clone());
    CHECK(v.front().empty() && v.back() == a);
    swap(a, v.front());
    CHECK(a.empty());
    std::swap(a, v.front());
    CHECK(a == c);
    const Set d{1, 2, 3}, e{5}, f(1, 5);
    CHECK(text(d) == "1..=3" && text(e) == "5..=5" && text(f) == "1..=5");
    const std::set<int> values{5, 6, 1};
    CHECK(text(Set(values)) == "1..=1, 5..=6" && text(Set(values.begin(), values.end())) == "1..=1, 5..=6");
    CHECK(text(range_set::set{1, 2, 3}) == "1..=3");
}

static void goes_over_sets() {
    Set a{{1, 5}, {10, 20}};
    std::uint64_t sum = 0;
    for (auto run : a) {
        sum += run.first;
    }
    CHECK(sum == 11);
    for (auto run : a.runs()) {
        sum += run.last;
    }
    CHECK(sum == 36);
    for (auto run = a.rbegin(); run != a.rend(); ++run) {
        sum = run->first;
    }
    CHECK(sum == 1);
    for (auto member : a.members()) {
        sum += member;
    }
    CHECK(sum == 181);
    for (auto [first, last] : a - Set{{2, 20}}) {
        sum = first + last;
    }
    CHECK(sum == 2);
    for (auto gap : a.gaps()) {
        sum = gap.first;
    }
    CHECK(sum == 21);
    for (const std::uint64_t value : a.values()) {
        sum += value;
    }
    CHECK(sum == 21 + 180 && std::distance(a.begin(), a.end()) == 2);
}

static void changes_sets() {
    Set a{{1, 5}};
    CHECK(a.insert(7) && a.insert(7, 9) && !a.insert(5, 1) && text(a) == "1..=5, 7..=9");
    CHECK(a.remove(8) && a.remove(3, 4) && a.erase(2) && !a.erase(2) && text(a) == "1..=1, 5..=5, 7..=7, 9..=9");
    CHECK(throws<std::out_of_range>([&] { a.insert(-1); }));
    CHECK(throws<std::out_of_range>([] { range_set::set<std::uint32_t>().insert(1ull << 40); }));
    const std::vector<int> more{20, 21};
    a.insert(more.begin(), more.end());
    a.insert(Set{{30, 40}});
    CHECK(text(a) == "1..=1, 5..=5, 7..=7, 9..=9, 20..=21, 30..=40");
}

static void combines_sets() {
    Set a{{1, 5}}, b{{4, 9}};
    CHECK(text(a | b) == "1..=9");
    a |= b;
    CHECK(text(a) == "1..=9");
    a -= b;
    CHECK(text(a) == "1..=3");
    a ^= b;
    CHECK(text(a) == "1..=9");
    a &= b;
    CHECK(text(a) == "4..=9");
}

static void asks_about_sets() {
    Set a{{1, 5}}, b{{4, 9}};
    CHECK(a.contains(3) && a.contains(1, 3) && a.size() == 5 && a.count(3) == 1 && !a.contains(-1));
    CHECK(a != b && a < b && a <= b && !(a > b) && !(a >= b) && !(a == b) && a.intersects(b));
    std::uint64_t n = a.size();
    CHECK(n == 5 && a.front() == 1 && a.back() == 5 && a.lower_bound(3) == a.begin() && a.upper_bound(3) == a.end());
}

static void writes_and_reads_sets() {
    Set a{{1, 5}, {10, 20}}, b;
    std::cout << a << '\n';
    std::cout << a.len() << '\n';
    std::stringstream stream;
    stream << a << '\n';
    stream >> b;
    CHECK(b == a && Set::parse("22, 80, 8000..=8100").size() == 103);
}

int main() {
    program_with_character_classes();
    program_with_free_pages();
    program_with_negative_values();
    makes_sets();
    goes_over_sets();
    changes_sets();
    combines_sets();
    asks_about_sets();
    writes_and_reads_sets();
    return 0;
}
