// Element types of every kind, and their values in order by a definition that the class does not use.
#ifndef TYPES_HPP
#define TYPES_HPP

#include "range_set.hpp"

#include <chrono>
#include <string>

using range_set::int128;
using range_set::uint128;

enum class Side : signed char { left = -1, right = 1 };
enum Plain : unsigned { zero, one };
enum class Mask : std::uint64_t { none };
enum class Day { monday, tuesday, wednesday, thursday, friday, saturday, sunday };
template <> struct range_set::element<Day> : range_set::values_between<Day::monday, Day::sunday> {};

// A number from 1000 to 1199.
struct Percent {
    int number = 1000;
};
template <> struct range_set::element<Percent> {
    static constexpr Percent least() noexcept { return {1000}; }
    static constexpr Percent greatest() noexcept { return {1199}; }
    static constexpr std::uint16_t rank(Percent value) noexcept { return static_cast<std::uint16_t>(value.number); }
    static constexpr Percent value(std::uint16_t rank) noexcept { return {rank}; }
};
template <class Out> Out &operator<<(Out &out, const Percent &value) { return out << value.number << '%'; }

// An address of 128 bits as 16 bytes, the first of which counts most. fe80:: and later ones are no values.
struct Address {
    unsigned char bytes[16] = {};
};
template <> struct range_set::element<Address> {
    static Address least() noexcept { return {}; }
    static Address greatest() noexcept { return value((uint128{0xfe80} << 112) - 1); }

    static uint128 rank(const Address &address) noexcept {
        uint128 rank = 0;
        for (const unsigned char byte : address.bytes) {
            rank = rank << 8 | byte;
        }
        return rank;
    }

    static Address value(uint128 rank) noexcept {
        Address address;
        for (int i = 15; i >= 0; --i) {
            address.bytes[i] = static_cast<unsigned char>(rank);
            rank >>= 8;
        }
        return address;
    }
};

// A number of a type that the library knows, with fewer values: from -100 to 99. It is no int, so that
// range_set::set<int> keeps all of its values.
enum class Small : int {};
template <> struct range_set::element<Small> : range_set::values_between<Small{-100}, Small{99}> {};

using days = std::chrono::duration<int, std::ratio<86400>>;
using date = std::chrono::time_point<std::chrono::system_clock, days>;

// The values of a type in order: how many come before the last one, and each by its place. Here are those
// of integers and characters, from Least on.
template <class Type, int128 Least, uint128 Last> struct numbers_from {
    static uint128 last() { return Last; }
    static Type at(uint128 place) { return static_cast<Type>(static_cast<uint128>(Least) + place); }
};

constexpr uint128 power(int bits) { return uint128{1} << bits; }

template <class Type> struct values_of;
template <> struct values_of<bool> : numbers_from<bool, 0, 1> {};
template <> struct values_of<signed char> : numbers_from<signed char, -128, 255> {};
template <> struct values_of<unsigned char> : numbers_from<unsigned char, 0, 255> {};
template <> struct values_of<short> : numbers_from<short, -32768, 65535> {};
template <> struct values_of<unsigned short> : numbers_from<unsigned short, 0, 65535> {};
template <> struct values_of<int> : numbers_from<int, -2147483648ll, 0xffffffff> {};
template <> struct values_of<unsigned> : numbers_from<unsigned, 0, 0xffffffff> {};
template <> struct values_of<long> : numbers_from<long, -static_cast<int128>(power(63)), power(64) - 1> {};
template <> struct values_of<unsigned long> : numbers_from<unsigned long, 0, power(64) - 1> {};
template <> struct values_of<long long> : numbers_from<long long, -static_cast<int128>(power(63)), power(64) - 1> {};
template <> struct values_of<unsigned long long> : numbers_from<unsigned long long, 0, power(64) - 1> {};
template <> struct values_of<int128> : numbers_from<int128, -static_cast<int128>(power(126)) * 2, ~uint128{0}> {};
template <> struct values_of<uint128> : numbers_from<uint128, 0, ~uint128{0}> {};
template <> struct values_of<char> : numbers_from<char, static_cast<char>(-1) < 0 ? -128 : 0, 255> {};
template <> struct values_of<char16_t> : numbers_from<char16_t, 0, 65535> {};
template <> struct values_of<char32_t> : numbers_from<char32_t, 0, 0xffffffff> {};
template <> struct values_of<wchar_t>
    : numbers_from<wchar_t, static_cast<wchar_t>(-1) < 0 ? -2147483648ll : 0, 0xffffffff> {};
#ifdef __cpp_char8_t
template <> struct values_of<char8_t> : numbers_from<char8_t, 0, 255> {};
#endif
template <> struct values_of<Side> : numbers_from<Side, -128, 255> {};
template <> struct values_of<Plain> : numbers_from<Plain, 0, 0xffffffff> {};
template <> struct values_of<Mask> : numbers_from<Mask, 0, power(64) - 1> {};
template <> struct values_of<Day> : numbers_from<Day, 0, 6> {};
template <> struct values_of<Small> : numbers_from<Small, -100, 199> {};

template <> struct values_of<Percent> {
    static uint128 last() { return 199; }
    static Percent at(uint128 place) { return {1000 + static_cast<int>(place)}; }
};

template <> struct values_of<Address> {
    static uint128 last() { return (uint128{0xfe80} << 112) - 1; }
    static Address at(uint128 place) {
        Address address;
        for (int i = 0; i < 16; ++i) {
            address.bytes[i] = static_cast<unsigned char>(place >> (8 * (15 - i)));
        }
        return address;
    }
};

template <> struct values_of<range_set::scalar_value> {
    static uint128 last() { return 0x10ffff - 0x800; }
    static range_set::scalar_value at(uint128 place) {
        return static_cast<char32_t>(place < 0xd800 ? place : place + 0x800);
    }
};

template <> struct values_of<date> {
    static uint128 last() { return 0xffffffff; }
    static date at(uint128 place) { return date(days(values_of<int>::at(place))); }
};

template <> struct values_of<std::chrono::nanoseconds> {
    static uint128 last() { return power(64) - 1; }
    static std::chrono::nanoseconds at(uint128 place) {
        return std::chrono::nanoseconds(values_of<long long>::at(place));
    }
};

// A list of types, and a call for each of them: `types<int, char>::each([](auto of) { .. decltype(of)::type .. })`.
template <class Type> struct type_of { using type = Type; };

template <class... Types> struct types {
    template <class Call> static void each(Call call) { (call(type_of<Types>()), ...); }
};

using number_types = types<signed char, unsigned char, short, unsigned short, int, unsigned, long, unsigned long,
                           long long, unsigned long long, int128, uint128, char, char16_t, char32_t, wchar_t
#ifdef __cpp_char8_t
                           ,
                           char8_t
#endif
                           >;
using other_types = types<bool, Side, Plain, Mask, Day, Small, Percent, Address, range_set::scalar_value, date,
                          std::chrono::nanoseconds>;

#endif
