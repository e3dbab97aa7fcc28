// Integers of up to 128 bits: which types they are, their bounds, and how they compare. range_set.hpp
// includes this file.
#ifndef RANGE_SET_NUMBERS_HPP
#define RANGE_SET_NUMBERS_HPP

#include <cstddef>
#include <cstdint>
#include <type_traits>

// Whether the compiler has integers of 128 bits.
#ifdef __SIZEOF_INT128__
#define RANGE_SET_HAS_128 1
#endif

namespace range_set {

#ifdef RANGE_SET_HAS_128
// The integers of 128 bits, under names that -Wpedantic allows.
__extension__ typedef __int128 int128;
__extension__ typedef unsigned __int128 uint128;
#endif

namespace detail {

template <class Type, class... Others> inline constexpr bool is_one_of = (std::is_same_v<Type, Others> || ...);

// The integers of 128 bits. std::is_integral may be false for them.
#ifdef RANGE_SET_HAS_128
template <class Type> inline constexpr bool is_wide = is_one_of<Type, int128, uint128>;
template <class Type> inline constexpr bool is_signed = std::is_same_v<Type, int128> || std::is_signed_v<Type>;
#else
template <class Type> inline constexpr bool is_wide = false;
template <class Type> inline constexpr bool is_signed = std::is_signed_v<Type>;
#endif

// The standard integer types, and those of 128 bits. bool and the character types are not among them.
template <class Type> inline constexpr bool is_integer =
    is_wide<Type> || is_one_of<Type, signed char, short, int, long, long long, unsigned char, unsigned short, unsigned,
                               unsigned long, unsigned long long>;

#ifdef __cpp_char8_t
template <class Type> inline constexpr bool is_narrow_character = is_one_of<Type, char, char8_t>;
#else
template <class Type> inline constexpr bool is_narrow_character = is_one_of<Type, char>;
#endif
template <class Type> inline constexpr bool is_character =
    is_narrow_character<Type> || is_one_of<Type, wchar_t, char16_t, char32_t>;

// Integers and characters.
template <class Type> inline constexpr bool is_number = is_integer<Type> || is_character<Type>;

template <std::size_t Size> struct unsigned_of_size;
template <> struct unsigned_of_size<1> { using type = std::uint8_t; };
template <> struct unsigned_of_size<2> { using type = std::uint16_t; };
template <> struct unsigned_of_size<4> { using type = std::uint32_t; };
template <> struct unsigned_of_size<8> { using type = std::uint64_t; };
#ifdef RANGE_SET_HAS_128
template <> struct unsigned_of_size<16> { using type = uint128; };
#endif

// The unsigned type with as many bits, and the narrowest type that the C library stores them in.
template <class Type> using unsigned_of = typename unsigned_of_size<sizeof(Type)>::type;
template <class Type> using stored_as = typename unsigned_of_size<(sizeof(Type) < 4 ? 4 : sizeof(Type))>::type;

template <class Type> constexpr Type greatest_of() noexcept {
    if constexpr (std::is_same_v<Type, bool>) {
        return true;
    } else {
        constexpr auto bits = static_cast<unsigned_of<Type>>(~unsigned_of<Type>{0});
        return static_cast<Type>(is_signed<Type> ? bits >> 1 : bits);
    }
}

template <class Type> constexpr Type least_of() noexcept {
    if constexpr (is_signed<Type>) {
        return static_cast<Type>(-greatest_of<Type>() - 1);
    } else {
        return Type{};
    }
}

// Whether a number is less than one of another type.
template <class Left, class Right> constexpr bool is_less(Left left, Right right) noexcept {
    if constexpr (is_signed<Left> == is_signed<Right>) {
        return left < right;
    } else if constexpr (is_signed<Left>) {
        return left < 0 || static_cast<unsigned_of<Left>>(left) < right;
    } else {
        return right >= 0 && left < static_cast<unsigned_of<Right>>(right);
    }
}

} // namespace detail

} // namespace range_set

#endif
