// Bytes of sets, both ways: the rows of docs/FORMAT.md, each element type, and bytes that are those of no set.
#include "types.hpp"

#include "check.hpp"

#include <algorithm>
#include <array>
#include <random>
#include <set>
#include <vector>
#if __cplusplus > 201703L && __has_include(<span>)
#include <span>
#endif

using range_set::bytes_reason;
using range_set::set;

using octets = std::vector<unsigned char>;

static void push_number(octets &to, uint128 number) {
    for (; number > 127; number /= 128) {
        to.push_back(static_cast<unsigned char>(128 + static_cast<int>(number % 128)));
    }
    to.push_back(static_cast<unsigned char>(number));
}

// The bytes of a set whose runs have these places, by the words of docs/FORMAT.md.
static octets bytes_of(unsigned bits, const std::vector<std::pair<uint128, uint128>> &runs) {
    octets made{0xf5, 0x52, 0x53, 0x42, 1, static_cast<unsigned char>(bits)};
    push_number(made, runs.size());
    uint128 after = 0;
    for (const auto &[first, last] : runs) {
        push_number(made, first - after);
        push_number(made, last - first);
        after = last + 1;
    }
    return made;
}

template <class Type> static bool is_wrong(const octets &given, std::size_t position, bytes_reason reason) {
    range_set::bytes_fault fault;
    const bool is_read = set<Type>::try_from_bytes(given, &fault).has_value();
    return !is_read && fault.position == position && fault.reason == reason;
}

static void write_the_rows() {
    const octets small{0xf5, 0x52, 0x53, 0x42, 1, 0x20, 3, 3, 4, 2, 0, 0xbd, 1, 0x37};
    CHECK((set<unsigned char>{{3, 7}, 10, {200, 255}}).to_bytes() == small);
    const octets middle{0xf5, 0x52, 0x53, 0x42, 1, 0x40, 1, 255, 255, 255, 255, 255, 255, 255, 255, 0x7f, 0xad, 2};
    CHECK(set<std::int64_t>(-1, 300).to_bytes() == middle);
    octets whole{0xf5, 0x52, 0x53, 0x42, 1, 0x80, 1, 0};
    whole.insert(whole.end(), 18, 255);
    whole.push_back(3);
    CHECK((~set<uint128>()).to_bytes() == whole && (~set<int128>()).to_bytes() == whole);
    CHECK((set<uint128>().to_bytes() == octets{0xf5, 0x52, 0x53, 0x42, 1, 0x80, 0}));
    CHECK((set<range_set::scalar_value>{0xe000}).to_bytes() == bytes_of(32, {{0xd800, 0xd800}}));
}

static void refuse_the_rows() {
    CHECK(is_wrong<unsigned char>({}, 0, bytes_reason::cut_short));
    CHECK(is_wrong<unsigned char>({0xf5, 0x52, 0x53, 10}, 3, bytes_reason::not_magic));
    CHECK(is_wrong<unsigned char>({0xf5, 0x52, 0x53, 0x42, 2}, 4, bytes_reason::other_version));
    CHECK(is_wrong<unsigned char>({0xf5, 0x52, 0x53, 0x42, 1, 8, 0}, 5, bytes_reason::other_width));
    CHECK(is_wrong<unsigned char>({0xf5, 0x52, 0x53, 0x42, 1, 32}, 6, bytes_reason::cut_short));
    CHECK(is_wrong<unsigned char>({0xf5, 0x52, 0x53, 0x42, 1, 32, 0x81, 1}, 6, bytes_reason::past_greatest));
    CHECK(is_wrong<unsigned char>({0xf5, 0x52, 0x53, 0x42, 1, 32, 0x80, 0}, 7, bytes_reason::not_shortest));
    CHECK(is_wrong<unsigned char>({0xf5, 0x52, 0x53, 0x42, 1, 32, 2, 3, 4, 0}, 9, bytes_reason::touching));
    CHECK(is_wrong<unsigned char>({0xf5, 0x52, 0x53, 0x42, 1, 32, 1, 0xc8, 1, 0x38}, 9, bytes_reason::past_greatest));
    CHECK(is_wrong<unsigned char>({0xf5, 0x52, 0x53, 0x42, 1, 32, 2, 0xff, 1}, 7, bytes_reason::past_greatest));
    CHECK(is_wrong<unsigned char>({0xf5, 0x52, 0x53, 0x42, 1, 32, 0, 0}, 7, bytes_reason::too_long));
    CHECK(throws<std::invalid_argument>([] { set<int>::from_bytes(std::string("RSB")); }));
    try {
        set<int>::from_bytes(bytes_of(32, {{5, 9}}).data(), 7);
    } catch (const std::invalid_argument &error) {
        CHECK(std::string(error.what()).find("byte 7 is wrong: the bytes end") != std::string::npos);
    }
    CHECK(!set<int>::try_from_bytes(octets{}) && !set<int>::try_from_bytes("", 0));
}

// Writes and reads sets of a type at both ends of it.
template <class Type> static void there_and_back() {
    using values = values_of<Type>;
    const unsigned bits = 8 * sizeof(range_set::detail::number_of<Type>);
    const uint128 last = values::last();
    std::vector<std::vector<std::pair<uint128, uint128>>> rows{{}, {{0, 0}}, {{last, last}}, {{0, last}}};
    if (last > 5) {
        rows.insert(rows.end(), {{{0, 0}, {last, last}}, {{1, 2}, {4, last - 1}}, {{0, 3}, {last, last}}});
    }
    for (const auto &runs : rows) {
        set<Type> made;
        for (const auto &[from, to] : runs) {
            made.insert(values::at(from), values::at(to));
        }
        octets written = made.to_bytes();
        CHECK(written == bytes_of(bits, runs) && set<Type>::from_bytes(written) == made);
        for (std::size_t size = 0; size < written.size(); ++size) {
            CHECK(is_wrong<Type>(octets(written.data(), written.data() + size), size, bytes_reason::cut_short));
        }
        written.push_back(0);
        CHECK(is_wrong<Type>(written, written.size() - 1, bytes_reason::too_long));
    }
    CHECK(is_wrong<Type>(bytes_of(bits == 64 ? 32 : 64, {}), 5, bytes_reason::other_width));
}

// The position is the greatest number of first bytes that some set's bytes have too.
static void find_positions_by_all_sets() {
    std::vector<octets> all;
    std::set<octets> prefixes;
    for (int mask = 0; mask < 128; ++mask) {
        set<Day> made;
        for (int day = 0; day < 7; ++day) {
            if ((mask >> day & 1) != 0) {
                made.insert(static_cast<Day>(day));
            }
        }
        all.push_back(made.to_bytes());
        for (std::size_t size = 0; size <= all.back().size(); ++size) {
            prefixes.emplace(all.back().data(), all.back().data() + size);
        }
    }
    std::mt19937 generator(3);
    const unsigned char letters[] = {0, 1, 2, 3, 4, 5, 6, 7, 127, 128, 129, 255};
    std::set<bytes_reason> seen;
    for (int round = 0; round < 20000; ++round) {
        octets given = all[generator() % all.size()];
        for (auto changes = generator() % 2; changes < 2; ++changes) {
            const std::size_t start = generator() % 10 == 0 ? 0 : 5;
            const auto at = given.begin() + static_cast<std::ptrdiff_t>(
                                                std::min(start + generator() % (given.size() + 1), given.size()));
            const auto after = at == given.end() || generator() % 2 == 0 ? at : at + 1;
            auto place = given.erase(at, after);
            for (auto more = generator() % 3; more > 0; --more) {
                place = given.insert(place, letters[generator() % sizeof letters]);
            }
        }
        std::size_t wanted = given.size();
        while (prefixes.count(octets(given.data(), given.data() + wanted)) == 0) {
            --wanted;
        }
        range_set::bytes_fault fault;
        if (const auto read = set<Day>::try_from_bytes(given, &fault)) {
            CHECK(read->to_bytes() == given);
            continue;
        }
        CHECK(fault.position == wanted && (fault.reason == bytes_reason::cut_short) == (wanted == given.size()));
        seen.insert(fault.reason);
    }
    CHECK(seen.size() == 7 && seen.count(bytes_reason::not_shortest) == 0); // each number has one byte
}

static void take_what_has_bytes() {
    const set<int> made{{-3, 5}, 9};
    const octets written = made.to_bytes();
    std::string text(written.begin(), written.end());
    std::array<char, 9> array{};
    std::copy(text.begin(), text.begin() + 9, array.begin());
    CHECK(set<int>::from_bytes(text) == made && set<int>::from_bytes(std::string_view(text)) == made);
    CHECK(set<int>::from_bytes(text.data(), text.size()) == made &&
          set<int>::from_bytes(reinterpret_cast<const std::byte *>(text.data()), text.size()) == made);
    CHECK(!set<int>::try_from_bytes(array));
#ifdef __cpp_lib_span
    CHECK(set<int>::from_bytes(std::span(written)) == made && set<int>::from_bytes(std::as_bytes(std::span(text))) == made);
#endif
}

static void announce_too_many_runs() {
    const octets announced{0xf5, 0x52, 0x53, 0x42, 1, 0x40, 255, 255, 255, 255, 255, 255, 255, 255, 0x7f, 0, 0};
    CHECK(is_wrong<std::uint64_t>(announced, announced.size(), bytes_reason::cut_short));
}

int main() {
    write_the_rows();
    refuse_the_rows();
    number_types::each([](auto of) { there_and_back<typename decltype(of)::type>(); });
    other_types::each([](auto of) { there_and_back<typename decltype(of)::type>(); });
    find_positions_by_all_sets();
    take_what_has_bytes();
    announce_too_many_runs();
    std::printf("sets are written as bytes and read again, and other bytes are refused where they are wrong\n");
    return 0;
}
