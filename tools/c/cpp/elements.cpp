// Sets of each kind of element type, on rows worked by hand: their bounds, their text, and arguments of other
// types.
#include "types.hpp"

#include "check.hpp"

#include <map>
#include <vector>

using range_set::run;
using range_set::scalar_value;
using range_set::set;

// Returns what `<<` writes of all values, and of all but those from first to last.
template <class Type> static std::string all_text() { return text(~set<Type>()); }

template <class Type, class First, class Last> static std::string text_without(First first, Last last) {
    return text(~set<Type>(first, last));
}

static void go_to_both_ends_of_signed_types() {
    CHECK(text_without<signed char>(-5, 3) == "-128..=-6, 4..=127" && all_text<short>() == "-32768..=32767");
    CHECK(text_without<int>(-1, 1) == "-2147483648..=-2, 2..=2147483647");
    CHECK(text_without<long>(0, 0) == "-9223372036854775808..=-1, 1..=9223372036854775807");
    CHECK(text_without<int128>(-1, 0) == "-170141183460469231731687303715884105728..=-2, "
                                         "1..=170141183460469231731687303715884105727");
    set<int> a{-5, 3, {-2, 1}};
    CHECK(text(a) == "-5..=-5, -2..=1, 3..=3" && a.front() == -5 && a.back() == 3 && a.rank(0) == 3 && a.nth(1) == -2);
    CHECK((std::vector<int>(a.values().begin(), a.values().end()) == std::vector<int>{-5, -2, -1, 0, 1, 3}));
    CHECK(a.gap_after(-5)->last == -3 && a.next_run(-4)->first == -2 && a.first_gap(-5, 3)->first == 4);
}

static void go_to_both_ends_of_unsigned_types() {
    CHECK(text_without<unsigned char>(0, 9) == "10..=255" && text_without<unsigned short>(9, 65535) == "0..=8");
    CHECK(all_text<unsigned>() == "0..=4294967295" && all_text<unsigned long long>() == "0..=18446744073709551615");
    CHECK(text_without<uint128>(0, 1) == "2..=340282366920938463463374607431768211455");
    CHECK((~set<unsigned char>()).size() == 256 && (~set<int>()).size() == 1ull << 32);
    CHECK(set<unsigned char>().first_gap(200, 56)->last == 255 && !set<unsigned char>().first_gap(200, 57));
    const set<unsigned char> last{255}, most(100, 255);
    CHECK(!most.next_gap(100) && last.gaps().begin()->last == 254);
}

static void count_members_of_wide_types() {
    const set<uint128> all = ~set<uint128>();
    CHECK(all.len().top == 1 && text(all.len()) == "340282366920938463463374607431768211456" && all.len() > power(127));
    CHECK(throws<std::overflow_error>([&] { return all.size(); }) &&
          text((all - 7).len()) == "340282366920938463463374607431768211455");
    CHECK(text((~set<long>()).len()) == "18446744073709551616" &&
          text(set<uint128>(0, power(64)).len()) == "18446744073709551617");
    CHECK(all.rank(power(100)) == power(100) && all.nth(power(100)) == power(100) &&
          (~all).first_gap(5, power(127))->first == 5);
    CHECK(set<uint128>(3, 9).size() == 7 && set<uint128>(3, power(90)).rank(power(80)) == power(80) - 3);
}

static void write_characters_as_numbers() {
    set<char> a{'a', 'c', {'x', 'z'}};
    CHECK(text(a) == "97..=97, 99..=99, 120..=122" && a.contains('y') && !a.contains('b') && a.contains(99));
    CHECK(set<char>::parse("97..=99").contains('b') && set<char>::parse(a.to_text()) == a);
    set<char32_t> b{U'a', U'\u00e9', {U'\U0001f600', U'\U0001f64f'}};
    CHECK(text(b) == "97..=97, 233..=233, 128512..=128591" && text(~set<char32_t>()) == "0..=4294967295");
    set<char16_t> c{u'a', {u'b', u'd'}};
    CHECK(text(c) == "97..=100" && set<wchar_t>{L'a'}.contains(L'a') && (~set<char16_t>()).size() == 65536);
#ifdef __cpp_char8_t
    set<char8_t> d{u8'a'};
    CHECK(text(d) == "97..=97" && d.contains('a') && (~d).contains(0xc3));
#endif
}

static void take_other_characters_that_mean_the_same() {
    set<char32_t> a;
    CHECK(a.insert('a') && !a.insert(u'a') && !a.insert(97) && a.insert(0x1f600) && a.contains(L'a') && a.size() == 2);
    CHECK(!a.contains(-1) && !a.contains(static_cast<char>(-23)) && !a.contains(1ll << 32));
    CHECK(throws<std::out_of_range>([&] { a.insert(static_cast<char>(-23)); }) &&
          throws<std::out_of_range>([&] { a.insert(-1); }));
    set<char16_t> b;
    CHECK(throws<std::out_of_range>([&] { b.insert(U'\U0001f600'); }) && b.insert(U'\u00e9') &&
          !b.contains(U'\U0001f600'));
}

static void join_scalar_values_across_the_surrogates() {
    set<scalar_value> a{{0xd7f0, 0xe00f}};
    CHECK(a.run_count() == 1 && a.size() == 32 && text(~a) == "0..=55279, 57360..=1114111" && a.back() == 0xe00f);
    set<scalar_value> b{0xd7ff, 0xe000}, all = ~set<scalar_value>();
    CHECK(b.run_count() == 1 && b.size() == 2 && all.size() == 0x110000 - 0x800 && all.back() == 0x10ffff);
    CHECK(!all.contains(0xd800) && !all.contains(U'\xdfff') && !all.contains(0x110000) && !all.contains(-1) &&
          all.contains('a'));
    CHECK(throws<std::out_of_range>([&] { b.insert(0xdfff); }) &&
          throws<std::out_of_range>([&] { b.insert(0x110000); }));
    std::vector<char32_t> each;
    for (const char32_t c : b.members()) {
        each.push_back(c);
    }
    CHECK((each == std::vector<char32_t>{0xd7ff, 0xe000}) && set<char32_t>(b.members()).run_count() == 2);
}

static void hold_enums() {
    set<Side> a{Side::right};
    CHECK(text(a) == "1..=1" && text(~a) == "-128..=0, 2..=127" && a.contains(Side::right) && !a.contains(Side::left));
    CHECK(text(set<Plain>{zero, one}) == "0..=1" && all_text<Mask>() == "0..=18446744073709551615");
    set<bool> b{true};
    CHECK(text(~b) == "0..=0" && (~set<bool>()).size() == 2 && b.contains(true) && !b.contains(false) && b.front());
}

static void end_where_a_type_of_fewer_values_ends() {
    set<Day> work{{Day::monday, Day::friday}};
    CHECK(text(~work) == "5..=6" && (~set<Day>()).size() == 7 && work.gaps().begin()->last == Day::sunday);
    CHECK(work.next_gap(Day::monday)->last == Day::sunday && work.last_run()->last == Day::friday &&
          !(~work).gap_after(Day::friday));
    CHECK(set<Day>::intersection_of({}).size() == 7 && set<Day>::at_least(0, {work}).size() == 7);
    CHECK(throws<std::out_of_range>([&] { work.insert(static_cast<Day>(7)); }) && !work.contains(static_cast<Day>(-1)));
    CHECK(work.first_gap(Day::monday, 2)->first == Day::saturday && !work.first_gap(Day::monday, 3));
    CHECK(text(~set<Small>{{Small{-5}, Small{5}}}) == "-100..=-6, 6..=99");
}

static void hold_types_of_a_user() {
    set<Percent> a{{Percent{1010}, Percent{1019}}};
    CHECK(text(a) == "1010%..=1019%" && text(~a) == "1000%..=1009%, 1020%..=1199%" && (~set<Percent>()).size() == 200);
    CHECK(throws<std::out_of_range>([&] { a.insert(Percent{1200}); }) &&
          throws<std::out_of_range>([&] { a.insert(Percent{999}); }));
    CHECK(!a.contains(Percent{1200}) && a.is_disjoint(Percent{0}, Percent{1009}) &&
          !a.is_disjoint(Percent{1019}, Percent{5000}));
    CHECK(a.contains(Percent{1200}, Percent{1000}) && !a.contains(Percent{1015}, Percent{1200}) &&
          a.rank(Percent{1015}) == 5);
    const Address first = values_of<Address>::at(uint128{0x20010db8} << 96),
                  last = values_of<Address>::at((uint128{0x20010db9} << 96) - 1);
    set<Address> b{{first, last}};
    CHECK(b.contains(first) && text(b.len()) == "79228162514264337593543950336" && b.gaps().size() == 2);
    CHECK(b.gaps().rbegin()->last.bytes[0] == 0xfe && b.gaps().rbegin()->last.bytes[1] == 0x7f);
}

static void hold_dates_and_durations() {
    const date leap = date(days(19782)); // 2024-02-29
    set<date> a{{leap - days(1), leap + days(1)}, date(days(0)), date(days(-1)), leap + days(366)};
    CHECK(text(a) == "1969-12-31..=1970-01-01, 2024-02-28..=2024-03-01, 2025-03-01..=2025-03-01");
    CHECK(a.size() == 6 && a.contains(leap) &&
          text(set<date>{date(days(-719529)), date(days(-719528))}) == "-0001-12-31..=0000-01-01");
    using std::chrono::minutes;
    set<minutes> b{{std::chrono::hours(9), std::chrono::hours(10)}, minutes(5)};
    CHECK(b.size() == 62 && b.contains(minutes(590)) && !b.contains(minutes(601)));
#if __cplusplus >= 202002L && defined(__cpp_lib_chrono)
    using namespace std::chrono;
    set<sys_days> c{{2024y / 2 / 28, 2024y / 3 / 1}, sys_days(2025y / 1 / 1)};
    CHECK(text(c) == "2024-02-28..=2024-03-01, 2025-01-01..=2025-01-01" && c.contains(2024y / 2 / 29) && c.size() == 4);
#endif
}

static void take_values_of_sets_of_other_types() {
    const set<signed char> a{{-3, 5}, 100};
    CHECK(text(set<long>(a)) == "-3..=5, 100..=100" && text(set<int128>(a.values())) == "-3..=5, 100..=100");
    CHECK(throws<std::out_of_range>([&] { set<unsigned> made(a); }) &&
          text(set<unsigned>(a & set<signed char>(0, 127))) == "0..=5, 100..=100");
    CHECK(throws<std::out_of_range>([&] { set<signed char> made(~set<int>()); }));
    const std::map<int, long> pairs{{-9, -7}, {3, 4}};
    const int values[] = {7, -1, 6, 5, 6};
    CHECK(text(set<int>(pairs)) == "-9..=-7, 3..=4" && text(set<short>(values)) == "-1..=-1, 5..=7");
    CHECK(text(set<int>::from_runs(pairs)) == "-9..=-7, 3..=4" &&
          text(set<int>::from_runs({{-9, -7}, 3})) == "-9..=-7, 3..=3");
}

static void deduce_the_type_of_values_in_braces() {
    set a{-1, 2, 3};
    static_assert(std::is_same_v<decltype(a), set<int>>);
    set b{U'a', U'b'};
    static_assert(std::is_same_v<decltype(b), set<char32_t>>);
    set c{run<int>(1, 5)};
    static_assert(std::is_same_v<decltype(c), set<int>>);
    CHECK(text(a) == "-1..=-1, 2..=3" && text(c) == "1..=5" && b.size() == 2);
}

static void store_as_few_bits_as_the_ranks_need() {
    static_assert(std::is_same_v<set<short>::rank_type, std::uint64_t> &&
                  std::is_same_v<set<int128>::rank_type, uint128>);
    static_assert(std::is_same_v<range_set::detail::number_of<Percent>, std::uint32_t>);
    static_assert(std::is_same_v<range_set::detail::number_of<date>, std::uint32_t>);
    static_assert(std::is_same_v<range_set::detail::number_of<long>, std::uint64_t>);
    static_assert(std::is_same_v<range_set::detail::number_of<Address>, uint128>);
    static_assert(std::is_same_v<range_set::u64_set, set<std::uint64_t>> &&
                  std::is_same_v<range_set::i32_set, set<std::int32_t>>);
    static_assert(noexcept(set<int>().contains(5ull)) &&noexcept(set<int>().find('a' - 5)) &&
                  !noexcept(set<Percent>().contains(Percent())));
}

int main() {
    go_to_both_ends_of_signed_types();
    go_to_both_ends_of_unsigned_types();
    count_members_of_wide_types();
    write_characters_as_numbers();
    take_other_characters_that_mean_the_same();
    join_scalar_values_across_the_surrogates();
    hold_enums();
    end_where_a_type_of_fewer_values_ends();
    hold_types_of_a_user();
    hold_dates_and_durations();
    take_values_of_sets_of_other_types();
    deduce_the_type_of_values_in_braces();
    store_as_few_bits_as_the_ranks_need();
    std::printf("sets of each kind of element type answer as worked by hand\n");
    return 0;
}
