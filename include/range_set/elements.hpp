// The types that a set may hold, and how their values are numbered. range_set.hpp includes this file.
#ifndef RANGE_SET_ELEMENTS_HPP
#define RANGE_SET_ELEMENTS_HPP

#include "calls.hpp"

#include <cstdlib>
#include <stdexcept>
#include <utility>

// Where a program is compiled without exceptions, what would throw ends it by std::abort.
#if defined(__cpp_exceptions) || defined(__EXCEPTIONS) || defined(_CPPUNWIND)
#define RANGE_SET_THROW(error) throw error
#else
#define RANGE_SET_THROW(error) std::abort()
#endif

namespace range_set {

// How the values of a type are numbered. Integers of up to 128 bits, bool, characters, enums, and time
// points and durations of std::chrono over integers are element types. To make your own type one,
// specialize this template with four functions, best constexpr and noexcept:
//
//     template <> struct range_set::element<Page> {
//         static constexpr Page least() { return Page{0}; }
//         static constexpr Page greatest() { return Page{199}; }
//         static constexpr std::uint32_t rank(Page page) { return page.number; }
//         static constexpr Page value(std::uint32_t rank) { return Page{rank}; }
//     };
//
// rank returns an unsigned integer, and value is its inverse. The rank of a greater value is greater, and
// the ranks from that of least() to that of greatest() are those of values. The set stores 32, 64 or 128
// bits for a rank, as its type needs. If an argument may have a value that the type lacks, a function
// `has(argument)` says so: then a question about it is answered, and its conversion need not throw.
//
// An enum has the values of its underlying type. values_between limits it, or an integer type:
//
//     template <> struct range_set::element<Day> : range_set::values_between<Day::monday, Day::sunday> {};
template <class Type, class = void> struct element;

namespace detail {

// The numbers of integers, characters and bool: a negative number gets one without its sign bit.
template <class Type> struct number_element {
    using unsigned_type = unsigned_of<Type>;

    static constexpr Type least() noexcept { return least_of<Type>(); }
    static constexpr Type greatest() noexcept { return greatest_of<Type>(); }

    static constexpr stored_as<Type> rank(Type value) noexcept {
        return static_cast<unsigned_type>(static_cast<unsigned_type>(value) ^ sign_bit);
    }

    static constexpr Type value(stored_as<Type> rank) noexcept {
        return static_cast<Type>(static_cast<unsigned_type>(static_cast<unsigned_type>(rank) ^ sign_bit));
    }

private:
    static constexpr auto sign_bit =
        static_cast<unsigned_type>(is_signed<Type> ? unsigned_type{1} << (8 * sizeof(Type) - 1) : 0);
};

// The numbers of enums are those of the underlying values.
template <class Type> struct enum_element {
    using number = number_element<std::underlying_type_t<Type>>;

    static constexpr Type least() noexcept { return static_cast<Type>(number::least()); }
    static constexpr Type greatest() noexcept { return static_cast<Type>(number::greatest()); }
    static constexpr auto rank(Type value) noexcept {
        return number::rank(static_cast<std::underlying_type_t<Type>>(value));
    }
    static constexpr Type value(stored_as<Type> rank) noexcept { return static_cast<Type>(number::value(rank)); }
};

// A time point or a duration is recognized by its members, since <chrono> takes long to compile.
template <class Type, class = void> inline constexpr bool is_time_point = false;
template <class Type> inline constexpr bool
    is_time_point<Type, std::void_t<typename Type::clock, typename Type::duration, typename Type::period,
                                    decltype(std::declval<const Type &>().time_since_epoch().count())>> =
        is_integer<typename Type::rep>;

template <class Type, class = void> inline constexpr bool is_duration = false;
template <class Type> inline constexpr bool is_duration<
    Type, std::void_t<typename Type::period, decltype(Type::zero()), decltype(std::declval<const Type &>().count())>> =
    is_integer<typename Type::rep>;

// The numbers of durations and time points are those of their counts.
template <class Type> struct time_element {
    using number = number_element<typename Type::rep>;

    static constexpr Type least() noexcept { return (Type::min)(); }
    static constexpr Type greatest() noexcept { return (Type::max)(); }

    static constexpr auto rank(const Type &value) noexcept {
        if constexpr (is_time_point<Type>) {
            return number::rank(value.time_since_epoch().count());
        } else {
            return number::rank(value.count());
        }
    }

    static constexpr Type value(stored_as<typename Type::rep> rank) noexcept {
        if constexpr (is_time_point<Type>) {
            return Type(typename Type::duration(number::value(rank)));
        } else {
            return Type(number::value(rank));
        }
    }
};

template <class Type, class = void> struct default_element;
template <class Type> struct default_element<Type, std::enable_if_t<is_number<Type> || std::is_same_v<Type, bool>>>
    : number_element<Type> {};
template <class Type> struct default_element<Type, std::enable_if_t<std::is_enum_v<Type>>> : enum_element<Type> {};
template <class Type> struct default_element<Type, std::enable_if_t<is_time_point<Type> || is_duration<Type>>>
    : time_element<Type> {};

template <class Type, class = void> inline constexpr bool has_default = false;
template <class Type> inline constexpr bool has_default<Type, std::void_t<decltype(default_element<Type>::least())>> =
    true;

} // namespace detail

template <class Type> struct element<Type, std::enable_if_t<detail::has_default<Type>>>
    : detail::default_element<Type> {};

// An element type whose values are those from `first` to `last` of an enum or an integer type.
template <auto first, auto last> struct values_between {
    using type = decltype(first);
    static_assert(std::is_same_v<type, decltype(last)>, "values_between takes two values of one type");

    static constexpr type least() noexcept { return first; }
    static constexpr type greatest() noexcept { return last; }
    static constexpr auto rank(type value) noexcept { return detail::default_element<type>::rank(value); }
    static constexpr type value(detail::stored_as<type> rank) noexcept {
        return detail::default_element<type>::value(rank);
    }
};

// A Unicode scalar value: a number up to 0x10ffff that is no surrogate. In a set of these, 0xd7ff and
// 0xe000 are neighbors. A char32_t may be any number of 32 bits (docs/DECISIONS.md, plain-char32).
class scalar_value {
public:
    constexpr scalar_value() noexcept = default;

    // Throws std::out_of_range if the character or number is no scalar value.
    template <class Number, class = std::enable_if_t<detail::is_number<Number>>> constexpr scalar_value(Number number)
        : code_(static_cast<char32_t>(number)) {
        if (!holds(number)) {
            RANGE_SET_THROW(std::out_of_range("range_set: a number is no Unicode scalar value"));
        }
    }

    constexpr operator char32_t() const noexcept { return code_; }

    // Whether a character or a number is a scalar value. A char or a char8_t is one if it is ASCII.
    template <class Number> static constexpr bool holds(Number number) noexcept {
        const bool is_surrogate = !detail::is_less(number, 0xd800) && detail::is_less(number, 0xe000);
        return !is_surrogate && !detail::is_less(number, 0) &&
               detail::is_less(number, detail::is_narrow_character<Number> ? 0x80 : 0x110000);
    }

private:
    char32_t code_ = 0;
};

template <> struct element<scalar_value> {
    static constexpr scalar_value least() noexcept { return {}; }
    static constexpr scalar_value greatest() { return 0x10ffff; }
    static constexpr std::uint32_t rank(char32_t value) noexcept { return value < 0xd800 ? value : value - 0x800u; }
    static constexpr scalar_value value(std::uint32_t rank) { return rank < 0xd800 ? rank : rank + 0x800u; }
    static constexpr bool has(scalar_value) noexcept { return true; }
    template <class Number> static constexpr auto has(Number number) noexcept
        -> std::enable_if_t<detail::is_number<Number>, bool> {
        return scalar_value::holds(number);
    }
};

namespace detail {

template <class Type, class = void> inline constexpr bool is_element = false;
template <class Type> inline constexpr bool
    is_element<Type, std::void_t<decltype(element<Type>::value(element<Type>::rank(element<Type>::least()))),
                                 decltype(element<Type>::rank(element<Type>::greatest())),
                                 decltype(element<Type>::rank(std::declval<const Type &>()))>> = true;

// Whether a set may hold each value of the type, by what the library says of it.
template <class Type, class = void> inline constexpr bool is_whole = false;
template <class Type> inline constexpr bool is_whole<Type, std::enable_if_t<has_default<Type>>> =
    std::is_base_of_v<default_element<Type>, element<Type>>;

} // namespace detail

} // namespace range_set

#endif
