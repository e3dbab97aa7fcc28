// Sets as bytes, in the format of docs/FORMAT.md. range_set.hpp includes this file.
#ifndef RANGE_SET_BYTES_HPP
#define RANGE_SET_BYTES_HPP

#include "values.hpp"

namespace range_set {

// What is wrong with bytes that are those of no set.
enum class bytes_reason : std::uint32_t {
    not_magic = RSB_NOT_MAGIC,         // the byte is not that of the magic number
    other_version = RSB_OTHER_VERSION, // the version of the format is not 1
    other_width = RSB_OTHER_WIDTH,     // the number of bits is not that of the type
    cut_short = RSB_CUT_SHORT,         // the bytes end before the last run does
    not_shortest = RSB_NOT_SHORTEST,   // the byte ends a number that has a shorter form
    touching = RSB_TOUCHING,           // the gap of a run is 0, so it touches the one before
    past_greatest = RSB_PAST_GREATEST, // the number is too large: the runs would go past the greatest value
    too_long = RSB_TOO_LONG            // the byte comes after the last run
};

// The first wrong byte, and what is wrong with it. If the bytes end too early, the position is their number.
struct bytes_fault {
    std::size_t position = 0;
    bytes_reason reason = bytes_reason::not_magic;
};

namespace detail {

constexpr const char *text_of(bytes_reason reason) noexcept {
    constexpr const char *texts[] = {"",
                                     "the bytes of a set begin otherwise",
                                     "the version of the format is not 1",
                                     "the number of bits is not that of the type",
                                     "the bytes end before the last run does",
                                     "the number that ends here has a shorter form",
                                     "the run touches the one before",
                                     "the number is too large",
                                     "the last run has ended"};
    return texts[static_cast<std::uint32_t>(reason)];
}

// The types that a byte may have.
template <class Type> inline constexpr bool is_byte =
    is_one_of<std::remove_cv_t<Type>, char, signed char, unsigned char, std::byte> || is_narrow_character<Type>;
template <class Type> using if_byte = std::enable_if_t<is_byte<Type>>;
template <class Bytes> using if_bytes =
    std::enable_if_t<is_byte<std::remove_reference_t<decltype(*std::declval<const Bytes &>().data())>> &&
                     sizeof(std::declval<const Bytes &>().size()) != 0>;

// Reads the bytes of a set whose ranks may be all numbers, as one whose ranks have a greatest one
// (docs/DECISIONS.md, bytes-by-storage).
template <class Number> class bounded_reader {
public:
    bounded_reader(const unsigned char *start, std::size_t size) noexcept : bytes_(start), size_(size) {}

    // Returns the position of the first byte with which a number is too large. If there is none, returns the
    // number of bytes or more.
    std::size_t first_past(Number greatest) noexcept {
        Number runs = 0, gap = 0, more = 0, next = 0;
        if (!read(greatest / 2 + 1, runs)) {
            return at_;
        }
        for (; runs > 0; --runs) {
            // Each run after this one takes two ranks or more.
            const auto most = static_cast<Number>(greatest - next - 2 * (runs - 1));
            if (!read(most, gap) || !read(static_cast<Number>(most - gap), more)) {
                return at_;
            }
            next = static_cast<Number>(next + gap + more + 1);
        }
        return size_;
    }

private:
    // Returns whether a number ends before the bytes do, and is not too large.
    bool read(Number most, Number &value) noexcept {
        value = 0;
        for (int shift = 0; at_ < size_; shift += 7) {
            const unsigned char byte = bytes_[at_];
            const bool has_more = byte > 127;
            value = static_cast<Number>(value | static_cast<Number>(byte & 127) << shift);
            // If there is more, it is 1 or more.
            if (value > most || (has_more && most - value < Number{1} << (shift + 7))) {
                return false;
            }
            ++at_;
            if (!has_more) {
                return true;
            }
        }
        return false;
    }

    static constexpr std::size_t header = 6;

    const unsigned char *bytes_;
    std::size_t size_;
    std::size_t at_ = header;
};

} // namespace detail

} // namespace range_set

#endif
