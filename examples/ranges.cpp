// Uses the sets from C++17: c++ -std=c++17 -Iinclude examples/ranges.cpp out/lib/librange_set.a
#include <range_set.hpp>

#include <iostream>

int main() {
    range_set::u64_set open{{9, 11}, {13, 18}}, busy{{10, 14}};
    open.insert(12);
    for (auto [first, last] : open - busy) {
        std::cout << first << "..=" << last << '\n';
    }
    std::cout << "closed " << ~open << '\n';
}
