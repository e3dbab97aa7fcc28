// What happens after mistakes of a user, and around threads and forks: each call throws what range_set.hpp
// says, and no set changes.
#include "types.hpp"

#include "check.hpp"

#include <sys/wait.h>
#include <thread>
#include <unistd.h>
#include <vector>

using range_set::set;
using out_of_range = std::out_of_range;

// Each call that takes a value, with one that no set of the type has.
template <class Type, class Value> static void refuses_a_value(set<Type> &a, Value value) {
    const Type good = a.front();
    CHECK(throws<out_of_range>([&] { a.insert(value); }) && throws<out_of_range>([&] { a.insert(value, good); }));
    CHECK(throws<out_of_range>([&] { a.insert(good, value); }) && throws<out_of_range>([&] { a.erase(value); }));
    CHECK(throws<out_of_range>([&] { a |= value; }) && throws<out_of_range>([&] { a -= value; }));
    CHECK(throws<out_of_range>([&] {
              set<Type> made{good, value};
          }) &&
          throws<out_of_range>([&] { set<Type> made(good, value); }));
    CHECK(throws<out_of_range>([&] {
              set<Type> made{{good, value}};
          }) &&
          throws<out_of_range>([&] { range_set::run<Type> made(value, good); }));
    CHECK(throws<out_of_range>([&] { set<Type> made(std::vector<Value>{value}); }) &&
          throws<out_of_range>([&] { a.rank(value); }));
    CHECK(throws<out_of_range>([&] { a.next_run(value); }) && throws<out_of_range>([&] { a.gap_before(value); }));
    CHECK(throws<out_of_range>([&] { a.first_gap(value, 1); }) && throws<out_of_range>([&] { a.run_or_gap(value); }));
    CHECK(throws<out_of_range>([&] { a.len(value, good); }) && throws<out_of_range>([&] { a = set<Type>(value); }));
    CHECK(!a.contains(value) && a.count(value) == 0 && a.find(value) == a.end() && !a.intersects(value) &&
          a.is_disjoint(value));
}

static void values_that_no_set_has() {
    set<unsigned char> a{{3, 9}};
    refuses_a_value(a, -1);
    refuses_a_value(a, 256);
    refuses_a_value(a, ~0ull);
    set<short> b{{-3, 9}};
    refuses_a_value(b, 32768);
    refuses_a_value(b, -32769l);
    set<std::uint64_t> c{{3, 9}};
    refuses_a_value(c, -1);
    refuses_a_value(c, uint128{1} << 64);
    set<int128> d{{-3, 9}};
    refuses_a_value(d, ~uint128{0});
    set<Day> e{{Day::tuesday, Day::friday}};
    refuses_a_value(e, static_cast<Day>(7));
    set<Percent> f{{Percent{1003}, Percent{1009}}};
    refuses_a_value(f, Percent{-1});
    refuses_a_value(f, Percent{1200});
    set<range_set::scalar_value> g{{'a', 'z'}};
    refuses_a_value(g, 0xdabc);
    refuses_a_value(g, -1);
    CHECK(text(a) == "3..=9" && text(b) == "-3..=9" && text(c) == "3..=9" && text(d) == "-3..=9" &&
          text(g) == "97..=122");
}

static void numbers_that_are_negative() {
    set<int> a{{3, 9}};
    range_set::run<int> stored[1];
    CHECK(throws<out_of_range>([&] { a.nth(-1); }) && throws<out_of_range>([&] { a.first_gap(0, -1); }));
    CHECK(throws<out_of_range>([&] { a.first_run_of(0, -1); }));
    CHECK(throws<out_of_range>([&] {
              a.runs_in({0, 9}, stored, -1);
          }) &&
          throws<out_of_range>([&] { set<int>::at_least(-1, {a}); }));
    CHECK(throws<out_of_range>([&] { set<int>::from_runs(stored, -1); }) &&
          throws<out_of_range>([&] { return range_set::count(-1); }));
    CHECK(!a.nth(7) && !a.nth(~0ull) && text(a) == "3..=9");
}

static void reversed_bounds() {
    set<int> a{{3, 9}};
    CHECK(!a.insert(20, 10) && !a.erase(9, 3) && a.contains(9, 3) && a.is_disjoint(9, 3) && !a.intersects(9, 3) &&
          a.len(9, 3) == 0);
    CHECK(set<int>(9, 3).empty() && set<int>{{9, 3}}.empty() && a.runs_in(9, 3).empty() &&
          range_set::run<int>(9, 3).empty());
    CHECK((a & range_set::run<int>(9, 3)).empty() && (a | range_set::run<int>(9, 3)) == a &&
          set<int>(std::vector<std::pair<int, int>>{{9, 3}}).empty());
    CHECK(!range_set::run<int>(9, 3).contains(5) && range_set::run<int>(3, 9).contains(5) &&
          !range_set::run<int>(3, 9).contains(-1ll));
    CHECK(range_set::run<int>().empty() && text(a) == "3..=9");
}

static void questions_about_empty_sets() {
    const set<int> a;
    CHECK(throws<out_of_range>([&] { return a.front(); }) && throws<out_of_range>([&] { return a.back(); }));
    CHECK(!a.first() && !a.last() && !a.first_run() && !a.nth(0) && a.find(3) == a.end() && a.rank(3) == 0 &&
          a.runs().begin() == a.end());
}

static void sets_after_they_are_moved() {
    set<int> a{{3, 9}};
    const set<int> b = std::move(a);
    a.clear();
    CHECK(a.empty() && a.insert(5) && text(a) == "5..=5" && text(b) == "3..=9");
}

static void readers_in_several_threads() {
    set<int> a;
    for (int i = 0; i < 3000; i += 3) {
        a.insert(i);
    }
    std::vector<std::thread> readers;
    for (int id = 0; id < 4; ++id) {
        readers.emplace_back([&a] {
            int members = 0;
            for (const int value : a.values()) {
                members += a.contains(value) && !a.contains(value + 1) ? 1 : 0;
            }
            CHECK(members == 1000 && (a & a) == a && a.clone() == a && a.rank(3000) == 1000);
        });
    }
    for (std::thread &reader : readers) {
        reader.join();
    }
}

static void a_forked_child() {
    set<int> a{{3, 9}};
    const pid_t child = fork();
    if (child == 0) {
        a.insert(20, 30);
        _exit(a.size() == 18 && a.erase(3) ? 0 : 1);
    }
    int status = -1;
    CHECK(waitpid(child, &status, 0) == child && status == 0 && text(a) == "3..=9");
}

int main() {
    a_forked_child();
    values_that_no_set_has();
    numbers_that_are_negative();
    reversed_bounds();
    questions_about_empty_sets();
    sets_after_they_are_moved();
    readers_in_several_threads();
    std::printf("mistakes throw, and change no set\n");
    return 0;
}
