// Sets of other types than numbers: c++ -std=c++20 -Iinclude examples/elements.cpp out/lib/librange_set.a
#include <range_set.hpp>

#include <chrono>
#include <iostream>

enum class Day { monday, tuesday, wednesday, thursday, friday, saturday, sunday };
template <> struct range_set::element<Day> : range_set::values_between<Day::monday, Day::sunday> {};

// A seat from A1 to F30, in the order of the rows.
struct Seat {
    int row;
    char letter;
};
template <> struct range_set::element<Seat> {
    static constexpr Seat least() { return {1, 'A'}; }
    static constexpr Seat greatest() { return {30, 'F'}; }
    static constexpr unsigned rank(Seat seat) { return static_cast<unsigned>(6 * seat.row + (seat.letter - 'A')); }
    static constexpr Seat value(unsigned rank) {
        return {static_cast<int>(rank / 6), static_cast<char>('A' + rank % 6)};
    }
};
static std::ostream &operator<<(std::ostream &out, Seat seat) { return out << seat.letter << seat.row; }

int main() {
    using namespace std::chrono;
    const range_set::set<int> celsius{-3, -1, {2, 5}};
    std::cout << "measured: " << celsius << ", not " << celsius.contains(0) << '\n';

    range_set::set<sys_days> holidays{{2026y / 12 / 24, 2027y / 1 / 1}, 2027y / 3 / 26};
    holidays.erase(2026y / 12 / 30);
    std::cout << holidays.size() << " holidays: " << holidays << '\n';

    const range_set::set<char32_t> letters{{U'a', U'z'}, {U'A', U'Z'}, U'_'};
    std::cout << "letters: " << letters.contains(U'q') << letters.contains(U'7') << '\n';

    const range_set::set<Day> weekend = ~range_set::set<Day>{{Day::monday, Day::friday}};
    std::cout << "the weekend has " << weekend.size() << " days\n";

    const range_set::set<Seat> taken{{Seat{1, 'A'}, Seat{2, 'C'}}, Seat{30, 'F'}};
    std::cout << "free: " << ~taken << '\n';
}
