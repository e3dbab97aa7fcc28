// Writes a set as bytes, and reads it again: c++ -std=c++17 -Iinclude examples/bytes.cpp out/lib/librange_set.a
#include <range_set.hpp>

#include <iostream>

int main() {
    const range_set::set<int> ports{22, 80, {8000, 8100}};
    const std::vector<unsigned char> bytes = ports.to_bytes();
    range_set::bytes_fault fault;
    for (std::size_t size : {bytes.size(), bytes.size() - 1}) {
        if (const auto read = range_set::set<int>::try_from_bytes(bytes.data(), size, &fault)) {
            std::cout << size << " bytes: " << *read << '\n';
        } else {
            std::cout << size << " bytes: wrong at " << fault.position << '\n';
        }
    }
}
