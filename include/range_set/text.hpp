// Runs, counts and sets as text, and text of runs read again. range_set.hpp includes this file.
#ifndef RANGE_SET_TEXT_HPP
#define RANGE_SET_TEXT_HPP

#include "values.hpp"

#include <string>
#include <string_view>
#include <vector>

namespace range_set {

namespace detail {

// A number in decimal, from its least digit on.
template <class Number> class digits {
public:
    constexpr explicit digits(Number number) noexcept {
        auto rest = static_cast<unsigned_of<Number>>(number);
        const bool negative = is_less(number, 0);
        rest = negative ? static_cast<unsigned_of<Number>>(0 - rest) : rest;
        do {
            text_[--start_] = static_cast<char>('0' + static_cast<int>(rest % 10));
            rest = static_cast<unsigned_of<Number>>(rest / 10);
        } while (rest != 0);
        if (negative) {
            text_[--start_] = '-';
        }
    }

    // The digits, with a zero byte at their end.
    constexpr const char *text() const noexcept { return text_ + start_; }
    constexpr std::string_view view() const noexcept { return {text(), sizeof text_ - 1 - start_}; }

private:
    char text_[41] = {};
    std::size_t start_ = sizeof text_ - 1;
};

// The integer or character type whose numbers are the text of a type, or void if it has no such text.
template <class Type> struct text_number { using type = std::conditional_t<is_number<Type>, Type, void>; };
template <> struct text_number<scalar_value> { using type = char32_t; };
template <class Type> using number_in_text = typename text_number<Type>::type;
template <class Type> inline constexpr bool is_read = !std::is_void_v<number_in_text<Type>>;

template <class Out, class Type, class = void> inline constexpr bool has_text = false;
template <class Out, class Type> inline constexpr bool
    has_text<Out, Type, std::void_t<decltype(std::declval<Out &>() << std::declval<const Type &>())>> = true;

template <class Type, class = void> inline constexpr bool is_date = false;
template <class Type> inline constexpr bool is_date<Type, std::enable_if_t<is_time_point<Type>>> =
    Type::period::num == 86400 && Type::period::den == 1;

// Writes the date that is some days after 1970-01-01, in the Gregorian calendar. Years of it begin in
// March here, so that a leap day ends one. 400 of them have 146097 days.
template <class Out> void write_date(Out &out, long long days) {
    const long long shifted = days + 719468;
    const long long era = (shifted >= 0 ? shifted : shifted - 146096) / 146097;
    const long long day_of_era = shifted - era * 146097;
    const long long year_of_era = (day_of_era - day_of_era / 1460 + day_of_era / 36524 - day_of_era / 146096) / 365;
    const long long day_of_year = day_of_era - (365 * year_of_era + year_of_era / 4 - year_of_era / 100);
    const long long month_from_march = (5 * day_of_year + 2) / 153;
    const long long day = day_of_year - (153 * month_from_march + 2) / 5 + 1;
    const long long month = month_from_march < 10 ? month_from_march + 3 : month_from_march - 9;
    const long long year = year_of_era + era * 400 + (month <= 2 ? 1 : 0);
    const long long distance = year < 0 ? -year : year;
    out << (year < 0 ? "-" : "")
        << (distance < 10     ? "000"
            : distance < 100  ? "00"
            : distance < 1000 ? "0"
                              : "")
        << digits<long long>(distance).text() << (month < 10 ? "-0" : "-") << digits<long long>(month).text()
        << (day < 10 ? "-0" : "-") << digits<long long>(day).text();
}

// Writes a value: characters and bool as numbers, so that parse reads them, and days as dates. An enum or
// another type is written by its own <<. An enum that has none is written as its underlying number.
template <class Out, class Type> void write_value(Out &out, const Type &value) {
    if constexpr (is_wide<Type>) {
        out << digits<Type>(value).text();
    } else if constexpr (is_read<Type>) {
        out << +static_cast<number_in_text<Type>>(value);
    } else if constexpr (std::is_same_v<Type, bool>) {
        out << +value;
    } else if constexpr (has_text<Out, Type>) {
        out << value;
    } else if constexpr (std::is_enum_v<Type>) {
        write_value(out, static_cast<std::underlying_type_t<Type>>(value));
    } else if constexpr (is_date<Type>) {
        write_date(out, value.time_since_epoch().count());
    } else {
        static_assert(has_text<Out, Type> || !is_element<Type>,
                      "To write a range_set::set, declare operator<< for its values, or include its header.");
    }
}

// Reads the runs that a text lists, with the grammar of rsb_u64_from_text.
template <class Type> class reader {
    static_assert(is_read<Type> || !is_element<Type>,
                  "range_set reads text of integers and of characters, as numbers.");
    using number = number_of<Type>;
    using run = typename calls<number>::run;
    using read_type = std::conditional_t<is_read<Type>, number_in_text<Type>, int>;
    using distance_type = unsigned_of<read_type>;

public:
    explicit reader(std::string_view text) : text_(text) {}

    // Appends the runs. Returns whether the text lists runs. If not, at() is the first byte that no such
    // text has there, or the end of the text.
    bool read(std::vector<run> &runs) {
        skip_blanks();
        if (at_ == text_.size()) {
            return true;
        }
        for (;;) {
            run next{};
            if (!read_run(next)) {
                return false;
            }
            runs.push_back(next);
            if (at_ == text_.size()) {
                return true;
            }
            if (text_[at_] != ',') {
                return false;
            }
            ++at_;
        }
    }

    std::size_t at() const noexcept { return at_; }

private:
    void skip_blanks() noexcept {
        while (at_ < text_.size() && is_one(text_[at_], " \t\n\r")) {
            ++at_;
        }
    }

    static bool is_one(char byte, std::string_view of) noexcept { return of.find(byte) != std::string_view::npos; }

    bool skip(char byte) noexcept {
        if (at_ == text_.size() || text_[at_] != byte) {
            return false;
        }
        ++at_;
        return true;
    }

    bool read_run(run &next) noexcept {
        number first = 0;
        if (!read_number(first)) {
            return false;
        }
        number last = first;
        if (at_ < text_.size() && text_[at_] == '.') {
            if (!skip('.') || !skip('.') || !skip('=') || !read_number(last)) {
                return false;
            }
        }
        next.first = calls<number>::to_c(first);
        next.last = calls<number>::to_c(last);
        return true;
    }

    // Reads a number with blanks around it.
    bool read_number(number &read) noexcept {
        skip_blanks();
        const bool negative = at_ < text_.size() && text_[at_] == '-';
        if (negative || (at_ < text_.size() && text_[at_] == '+')) {
            ++at_;
        }
        const std::size_t begin = at_;
        distance_type distance = 0;
        while (at_ < text_.size() && text_[at_] >= '0' && text_[at_] <= '9') {
            if (!add_digit(distance, static_cast<distance_type>(text_[at_] - '0'), bound(negative))) {
                return false;
            }
            ++at_;
        }
        const auto value = static_cast<read_type>(negative ? static_cast<distance_type>(0 - distance) : distance);
        const position<Type> position = position_of<Type>(value);
        if (at_ == begin || position.side != 0) {
            return false;
        }
        skip_blanks();
        read = position.number;
        return true;
    }

    // How far from 0 a number may be.
    static constexpr distance_type bound(bool negative) noexcept {
        if (!negative) {
            const auto greatest = static_cast<read_type>(ranked<Type>::greatest_value());
            return is_less(greatest, 0) ? 0 : static_cast<distance_type>(greatest);
        }
        const auto least = static_cast<read_type>(ranked<Type>::least_value());
        return is_less(0, least) ? 0 : static_cast<distance_type>(0 - static_cast<distance_type>(least));
    }

    static bool add_digit(distance_type &distance, distance_type digit, distance_type bound) noexcept {
        if (digit > bound || distance > (bound - digit) / 10) {
            return false;
        }
        distance = static_cast<distance_type>(distance * 10 + digit);
        return true;
    }

    std::string_view text_;
    std::size_t at_ = 0;
};

} // namespace detail

// Writes `1..=5`. Include <ostream> where you use it.
template <class Char, class Traits, class Type>
std::basic_ostream<Char, Traits> &operator<<(std::basic_ostream<Char, Traits> &out, const run<Type> &written) {
    detail::write_value(out, written.first);
    out << "..=";
    detail::write_value(out, written.last);
    return out;
}

// Writes the number in decimal. Include <ostream> where you use it.
template <class Char, class Traits>
std::basic_ostream<Char, Traits> &operator<<(std::basic_ostream<Char, Traits> &out, const count &written) {
#ifdef RANGE_SET_HAS_128
    if (written.top != 0) {
        return out << "340282366920938463463374607431768211456";
    }
    if (written.high != 0) {
        return out << detail::digits<uint128>(uint128{written.high} << 64 | written.low).text();
    }
#else
    if (written.high != 0) {
        return out << "18446744073709551616";
    }
#endif
    return out << written.low;
}

} // namespace range_set

#endif
