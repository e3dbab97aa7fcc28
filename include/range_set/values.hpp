// The values of a set, its runs, and numbers of members. range_set.hpp includes this file.
#ifndef RANGE_SET_VALUES_HPP
#define RANGE_SET_VALUES_HPP

#include "elements.hpp"

#include <iosfwd>

namespace range_set {

template <class Type> struct run;
template <class Type> class set;

namespace detail {

// The numbers that the C library stores for the values of a type: the ranks, less the least of them.
template <class Type, bool = is_element<Type>> struct ranked {
    using element = range_set::element<Type>;
    using given = decltype(element::rank(element::least()));
    static constexpr bool is_unsigned = is_integer<given> && !is_signed<given>;
    using rank = std::conditional_t<is_unsigned, given, unsigned>;
    using number = stored_as<rank>;

    static constexpr number of(const Type &value) noexcept(noexcept(element::rank(value))) {
        return static_cast<number>(static_cast<number>(element::rank(value)) - base());
    }

    static constexpr Type value(number stored) noexcept(noexcept(element::value(rank{}))) {
        return element::value(static_cast<rank>(stored + base()));
    }

    static constexpr number base() noexcept { return element::rank(element::least()); }
    static constexpr number greatest() noexcept { return of(element::greatest()); }
    static constexpr Type least_value() noexcept { return element::least(); }
    static constexpr Type greatest_value() noexcept { return element::greatest(); }
};

// A type that is no element type. The class refuses it, and nothing else has to.
template <class Type> struct ranked<Type, false> {
    static constexpr bool is_unsigned = true;
    using number = std::uint32_t;
    static number of(const Type &) noexcept { return 0; }
    static Type value(number) noexcept;
    static number greatest() noexcept { return greatest_of<number>(); }
    static Type least_value() noexcept;
    static Type greatest_value() noexcept;
};

template <class Type> using number_of = typename ranked<Type>::number;

// What counts the values below one: 64 bits, or 128 for types of 128 bits.
template <class Number> using rank_of = std::conditional_t<(sizeof(Number) > 8), Number, std::uint64_t>;

constexpr std::uint64_t as_rank(std::uint64_t members) noexcept { return members; }
constexpr std::uint64_t as_rank(const rsb_u64_count &members) noexcept { return members.low; }
#ifdef RANGE_SET_HAS_128
constexpr uint128 as_rank(const rsb_u128_count &members) noexcept {
    return as_halves::from_c({members.low, members.high});
}
#endif

// What an argument is for a set: below all of its values, above them, or a number of one. A value that
// no set has counts as one above them.
template <class Type> struct position {
    int side;
    number_of<Type> number;
};

// Whether a set of the type takes an argument of another one. Number types convert to each other without a
// word, so they are listed. Of a class, only an implicit conversion counts.
template <class Type, class Argument> constexpr bool find_takes() noexcept {
    constexpr bool converts = std::is_convertible_v<const Argument &, Type>;
    if constexpr (!std::is_arithmetic_v<Type> && !is_wide<Type>) {
        return converts;
    } else if constexpr (std::is_same_v<Type, Argument> || std::is_class_v<Argument>) {
        return converts;
    } else {
        return is_number<Type> && (is_character<Type> ? is_number<Argument> : is_integer<Argument>);
    }
}

template <class Type, class Argument> inline constexpr bool takes = find_takes<Type, Argument>();

// Refuses an argument of a wrong type, with the words for the type of the set.
template <class Type, class Argument> constexpr bool check_type() noexcept {
    if constexpr (!is_element<Type>) {
        return false;
    } else if constexpr (is_integer<Type>) {
        static_assert(takes<Type, Argument>,
                      "range_set takes arguments of the standard integer types: not bool, and no "
                      "character, floating-point, enum or other type. Cast the argument if you mean "
                      "its number.");
    } else if constexpr (is_character<Type>) {
        static_assert(takes<Type, Argument>, "A range_set::set of characters takes characters and integers.");
    } else {
        static_assert(takes<Type, Argument>, "A range_set::set takes values of its own type, and what converts to it "
                                             "implicitly. Integers do not convert to an enum: cast them.");
    }
    return takes<Type, Argument>;
}

// The position of a value.
template <class Type> constexpr position<Type> position_of_value(const Type &value) noexcept(is_whole<Type>) {
    using element = range_set::element<Type>;
    if constexpr (is_whole<Type>) {
        return {0, ranked<Type>::of(value)};
    } else {
        const auto rank = element::rank(value);
        if (rank < element::rank(element::least())) {
            return {-1, rank};
        }
        return rank > element::rank(element::greatest()) ? position<Type>{1, rank}
                                                         : position<Type>{0, ranked<Type>::of(value)};
    }
}

template <class Type, class Argument, class = void> inline constexpr bool asks_has = false;
template <class Type, class Argument> inline constexpr bool
    asks_has<Type, Argument, std::void_t<decltype(range_set::element<Type>::has(std::declval<const Argument &>()))>> =
        true;

// The position of an argument. A char or a char8_t that is not ASCII is no character of another type.
template <class Type, class Argument> constexpr position<Type> position_of(const Argument &argument) {
    if constexpr (!check_type<Type, Argument>()) {
        return {0, 0};
    } else if constexpr (std::is_same_v<Type, Argument>) {
        return position_of_value<Type>(argument);
    } else if constexpr (is_number<Type> && is_number<Argument>) {
        if (is_less(argument, least_of<Type>())) {
            return {-1, 0};
        }
        if (is_less(greatest_of<Type>(), argument) || (is_narrow_character<Argument> && is_less(127, argument))) {
            return {1, 0};
        }
        return position_of_value<Type>(static_cast<Type>(argument));
    } else {
        if constexpr (asks_has<Type, Argument>) {
            if (!range_set::element<Type>::has(argument)) {
                return {1, 0};
            }
        }
        const Type &value = argument;
        return position_of_value<Type>(value);
    }
}

// Whether a set has a value for each one of the argument's type.
template <class Type, class Argument> constexpr bool find_always_fits() noexcept {
    if constexpr (!is_whole<Type> || !takes<Type, Argument>) {
        return !is_element<Type>;
    } else if constexpr (std::is_same_v<Type, Argument>) {
        return true;
    } else if constexpr (is_number<Type> && is_number<Argument> && !is_narrow_character<Argument>) {
        return !is_less(least_of<Argument>(), least_of<Type>()) &&
               !is_less(greatest_of<Type>(), greatest_of<Argument>());
    } else {
        return false;
    }
}

template <class Type, class Argument> inline constexpr bool always_fits = find_always_fits<Type, Argument>();

// Whether a question about an argument throws nothing: for others, a conversion or a user's function may.
template <class Type, class Argument> inline constexpr bool never_throws =
    !is_element<Type> || std::is_same_v<Argument, range_set::set<Type>> || (is_whole<Type> && is_number<Argument>) ||
    (is_whole<Type> && is_one_of<Argument, Type, range_set::run<Type>>);

// Returns the number of an argument. This function is the rule on arguments in range_set.hpp.
template <class Type, class Argument>
constexpr number_of<Type> checked(const Argument &argument) noexcept(always_fits<Type, Argument>) {
    const position<Type> at = position_of<Type>(argument);
    if constexpr (!always_fits<Type, Argument>) {
        if (at.side != 0) {
            RANGE_SET_THROW(
                std::out_of_range("range_set: an argument is below the least value or above the greatest one"));
        }
    }
    return at.number;
}

// Returns an argument as a value of the type, by the same rule.
template <class Type, class Argument>
constexpr Type checked_value(const Argument &argument) noexcept(always_fits<Type, Argument>) {
    if constexpr (!check_type<Type, Argument>()) {
        return Type();
    } else {
        static_cast<void>(checked<Type>(argument));
        return static_cast<Type>(argument);
    }
}

// Whether the last value is below the first one, for arguments at any position.
template <class Type, class First, class Last>
constexpr bool is_reversed(const First &first, const Last &last, position<Type> from, position<Type> to) {
    if (from.side != to.side) {
        return to.side < from.side;
    }
    if constexpr (is_number<Type> && is_number<First> && is_number<Last>) {
        return is_less(last, first);
    } else {
        return to.number < from.number;
    }
}

// What is a value or a run for the set of some type, and nothing else.
template <class Type, class Argument> inline constexpr bool is_value = std::is_arithmetic_v<Argument> ||
                                                                       std::is_enum_v<Argument> || is_wide<Argument> ||
                                                                       std::is_convertible_v<const Argument &, Type>;
template <class Type, class... Arguments> using if_values = std::enable_if_t<(is_value<Type, Arguments> && ...)>;

template <class Type, class Argument> inline constexpr bool is_run =
    std::is_convertible_v<const Argument &, range_set::run<Type>>;

// A run as its two ends. For two types it is a run of C too.
template <class Type> struct ends {
    Type first;
    Type last;
};

template <class Type> struct ends_type { using type = ends<Type>; };
template <> struct ends_type<std::uint64_t> { using type = rsb_u64_run; };
template <> struct ends_type<std::uint32_t> { using type = rsb_u32_run; };
template <class Type> using ends_of = typename ends_type<Type>::type;

} // namespace detail

// All values from first to last, both included, or none if last is below first. The class returns runs of
// members and gaps between them, which are never empty. A run of std::uint64_t is also an rsb_u64_run, and
// one of std::uint32_t is an rsb_u32_run.
template <class Type> struct run : detail::ends_of<Type> {
    // No value: last is below first.
    constexpr run() noexcept
        : detail::ends_of<Type>{detail::ranked<Type>::greatest_value(), detail::ranked<Type>::least_value()} {}

    // These throw std::out_of_range by the rule on arguments in range_set.hpp. In a constant expression the
    // compiler refuses such an argument.
    template <class First, class Last, class = detail::if_values<Type, First, Last>>
    constexpr run(const First &from,
                  const Last &to) noexcept(detail::always_fits<Type, First> && detail::always_fits<Type, Last>)
        : detail::ends_of<Type>{detail::checked_value<Type>(from), detail::checked_value<Type>(to)} {}

    template <class First, class Last> constexpr run(const std::pair<First, Last> &given)
        : run(given.first, given.second) {}
    template <class Other> constexpr run(const run<Other> &other) : run(other.first, other.last) {}

    template <class Value, class = detail::if_values<Type, Value>>
    constexpr explicit run(const Value &value) noexcept(detail::always_fits<Type, Value>) : run(value, value) {}

    // Whether the run has no value, and whether it has a value.
    constexpr bool empty() const noexcept { return number(this->last) < number(this->first); }
    template <class Value> constexpr bool contains(const Value &value) const {
        const detail::position<Type> at = detail::position_of<Type>(value);
        return at.side == 0 && number(this->first) <= at.number && at.number <= number(this->last);
    }

    // Whether both have the same first and the same last value.
    friend constexpr bool operator==(const run &left, const run &right) noexcept {
        return number(left.first) == number(right.first) && number(left.last) == number(right.last);
    }

    friend constexpr bool operator!=(const run &left, const run &right) noexcept { return !(left == right); }

private:
    static constexpr auto number(const Type &value) noexcept { return detail::ranked<Type>::of(value); }
};

// A number of members, low + 2^64 * high + 2^128 * top. It may be more than a std::uint64_t can hold, so
// it does not convert to one. value() converts it, and so does size() of a set.
struct count {
    std::uint64_t low = 0;
    std::uint64_t high = 0;
    std::uint64_t top = 0;

    constexpr count() noexcept = default;
    constexpr count(const rsb_u64_count &number) noexcept : low(number.low), high(number.high) {}
#ifdef RANGE_SET_HAS_128
    constexpr count(const rsb_u128_count &number) noexcept : low(number.low), high(number.high), top(number.top) {}
#endif

    // Throws std::out_of_range by the rule on arguments in range_set.hpp.
    template <class Number, class = detail::if_values<std::uint64_t, Number>>
    constexpr count(Number number) noexcept(detail::always_fits<std::uint64_t, Number>) {
#ifdef RANGE_SET_HAS_128
        const auto halves = detail::as_halves::to_c(detail::checked<uint128>(number));
        low = halves.low;
        high = halves.high;
#else
        low = detail::checked<std::uint64_t>(number);
#endif
    }

    // Throws std::overflow_error if the number is 2^64 or more.
    constexpr std::uint64_t value() const {
        if (high != 0 || top != 0) {
            RANGE_SET_THROW(std::overflow_error("range_set: more members than a std::uint64_t can count"));
        }
        return low;
    }

    friend constexpr bool operator==(const count &left, const count &right) noexcept {
        return left.top == right.top && left.high == right.high && left.low == right.low;
    }

    friend constexpr bool operator<(const count &left, const count &right) noexcept {
        if (left.top != right.top) {
            return left.top < right.top;
        }
        return left.high != right.high ? left.high < right.high : left.low < right.low;
    }

    friend constexpr bool operator!=(const count &left, const count &right) noexcept { return !(left == right); }
    friend constexpr bool operator<=(const count &left, const count &right) noexcept { return !(right < left); }
    friend constexpr bool operator>(const count &left, const count &right) noexcept { return right < left; }
    friend constexpr bool operator>=(const count &left, const count &right) noexcept { return !(left < right); }
};

} // namespace range_set

#endif
