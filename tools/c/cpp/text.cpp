// Text of sets, both ways: what parse takes, where it says that a text is wrong, and lines of streams.
#include "types.hpp"

#include "check.hpp"

#include <random>

using range_set::set;

template <class Type> static std::string read_as(std::string_view given) { return set<Type>::parse(given).to_text(); }

// Where a text is wrong, or its length plus 1 if it is right.
template <class Type> static std::size_t wrong_at(std::string_view given) {
    std::size_t at = given.size() + 1;
    const auto read = set<Type>::try_parse(given, &at);
    CHECK(read.has_value() == (at == given.size() + 1));
    return at;
}

static void read_runs_and_values() {
    CHECK(read_as<int>("-5..=-1, 7, 10..=20") == "-5..=-1, 7..=7, 10..=20" && read_as<int>("") == "" &&
          read_as<int>(" \t\r\n") == "");
    CHECK(read_as<int>("7,8 , 9..=9,\n1 ..= 3") == "1..=3, 7..=9" && read_as<int>("5..=1, +3, -0") == "0..=0, 3..=3");
    CHECK(read_as<signed char>("-128..=-128, 0127") == "-128..=-128, 127..=127" &&
          read_as<unsigned char>("-0..=+255") == "0..=255");
    CHECK(read_as<uint128>("340282366920938463463374607431768211455") ==
          "340282366920938463463374607431768211455..=340282366920938463463374607431768211455");
    CHECK(read_as<int128>("-170141183460469231731687303715884105728..=-3") ==
          "-170141183460469231731687303715884105728..=-3");
    CHECK(read_as<range_set::scalar_value>("55295..=57344") == "55295..=57344" &&
          set<int>::from_text("3") == set<int>{3});
    CHECK(range_set::u64_set::parse("22, 80, 8000..=8100").size() == 103);
}

static void say_where_a_text_is_wrong() {
    CHECK(wrong_at<int>("1..=5") == 6 && wrong_at<int>("1, x") == 3 && wrong_at<int>("1,") == 2 &&
          wrong_at<int>(",1") == 0);
    CHECK(wrong_at<int>("1-5") == 1 && wrong_at<int>("1..5") == 3 && wrong_at<int>("1.") == 2 &&
          wrong_at<int>("1..=") == 4);
    CHECK(wrong_at<int>("1 2") == 2 && wrong_at<int>("1..=2..=3") == 5 && wrong_at<int>("- 1") == 1 &&
          wrong_at<int>("--1") == 1);
    CHECK(wrong_at<unsigned char>("256") == 2 && wrong_at<unsigned char>("2555") == 3 &&
          wrong_at<unsigned char>("-1") == 1);
    CHECK(wrong_at<signed char>("128") == 2 && wrong_at<signed char>("-129") == 3 &&
          wrong_at<signed char>("-128") == 5);
    CHECK(wrong_at<uint128>("340282366920938463463374607431768211456") == 38 &&
          wrong_at<range_set::scalar_value>("1114112") == 6);
    CHECK(wrong_at<range_set::scalar_value>("55296") == 5);
    CHECK(throws<std::invalid_argument>([] { set<int>::parse("1..5"); }));
    try {
        set<int>::parse("1..5");
    } catch (const std::invalid_argument &error) {
        CHECK(std::string(error.what()).find("byte 3") != std::string::npos);
    }
}

static void read_lines_of_a_stream() {
    std::istringstream in("1..=5, 7\n\n -3\n1..5\n9");
    set<int> a, b{1}, c, d{4}, e;
    in >> a >> b >> c;
    CHECK(in && text(a) == "1..=5, 7..=7" && b.empty() && text(c) == "-3..=-3");
    CHECK(!(in >> d) && !in.eof() && text(d) == "4..=4");
    in.clear();
    CHECK(in >> e && text(e) == "9..=9" && !(in >> e) && text(e) == "9..=9");
}

// The library's own reader takes the same texts, reads the same sets, and finds the same wrong bytes.
template <class Type, class Handle, class FromText, class Equal, class Free>
static void read_what_the_library_reads(FromText from_text_at, Equal equal, Free release) {
    std::mt19937 generator(7);
    const std::string letters[] = {"0",
                                   "1",
                                   "9",
                                   "25",
                                   "..=",
                                   "..=",
                                   ",",
                                   ", ",
                                   " ",
                                   "-",
                                   "+",
                                   ".",
                                   "=",
                                   "x",
                                   "\t",
                                   "429496729",
                                   "1844674407370955161"};
    int good = 0;
    for (int i = 0; i < 20000; ++i) {
        std::string given;
        for (auto left = generator() % 8; left > 0; --left) {
            given += letters[generator() % (sizeof letters / sizeof *letters)];
        }
        Handle read = RSB_EMPTY, again = RSB_EMPTY;
        std::size_t at = 99, our_at = 99;
        const bool is_good = from_text_at(&read, given.data(), given.size(), &at) == RSB_CHANGED;
        const auto ours = set<Type>::try_parse(given, &our_at);
        CHECK(ours.has_value() == is_good && our_at == at);
        if (is_good) {
            const std::string written = ours->to_text();
            CHECK(from_text_at(&again, written.data(), written.size(), &at) == RSB_CHANGED && equal(&read, &again));
            ++good;
        }
        release(&read);
        release(&again);
    }
    CHECK(good > 1000);
}

static void write_as_the_stream_says() {
    std::ostringstream out;
    out << std::hex << set<int>{{10, 31}} << ' ' << set<char>{'a'};
    CHECK(out.str() == "a..=1f 61..=61");
    std::wostringstream wide;
    wide << set<int128>{-7} << set<date>{date(days(1))};
    CHECK(wide.str() == L"-7..=-71970-01-02..=1970-01-02");
    CHECK(text(range_set::count(power(64))) == "18446744073709551616" && text(range_set::count(5)) == "5");
}

int main() {
    read_runs_and_values();
    say_where_a_text_is_wrong();
    read_lines_of_a_stream();
    read_what_the_library_reads<std::uint64_t, rsb_u64>(rsb_u64_from_text_at, rsb_u64_equal, rsb_u64_free);
    read_what_the_library_reads<std::uint32_t, rsb_u32>(rsb_u32_from_text_at, rsb_u32_equal, rsb_u32_free);
    read_what_the_library_reads<uint128, rsb_u128>(rsb_u128_from_text_at, rsb_u128_equal, rsb_u128_free);
    write_as_the_stream_says();
    std::printf("sets are read from text as the library reads them\n");
    return 0;
}
