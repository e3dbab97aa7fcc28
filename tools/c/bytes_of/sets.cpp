// Writes the bytes of sets to files, or reads them: sets (write | read) FOLDER. tools/c/try-bytes calls it. The sets are those
// of sets.c.
#include <range_set.hpp>

#include <fstream>
#include <iostream>
#include <iterator>

template <class Type> static bool keep(bool writes, const std::string &path, const range_set::set<Type> &made) {
    if (writes) {
        const auto bytes = made.to_bytes();
        std::ofstream file(path, std::ios::binary);
        file.write(reinterpret_cast<const char *>(bytes.data()), static_cast<std::streamsize>(bytes.size()));
        return file.good();
    }
    std::ifstream file(path, std::ios::binary);
    const std::string bytes{std::istreambuf_iterator<char>(file), {}};
    const auto read = range_set::set<Type>::try_from_bytes(bytes);
    if (!read || *read != made) {
        std::cerr << path << " has another set\n";
        return false;
    }
    return true;
}

template <class Type> static bool keep_all(bool writes, const std::string &path) {
    const range_set::set<Type> all = ~range_set::set<Type>();
    range_set::set<Type> spread{*all.last()};
    for (int at = 0; at < 1000; ++at) {
        const Type first = static_cast<Type>(*all.first() + static_cast<Type>(1000 * at * at));
        spread.insert(first, static_cast<Type>(first + static_cast<Type>(7 * at)));
    }
    return keep(writes, path + "-spread", spread) && keep(writes, path + "-all", all) &&
           keep(writes, path + "-none", range_set::set<Type>());
}

int main(int, char **arguments) {
    const bool writes = std::string("write") == arguments[1];
    const std::string folder = std::string(arguments[2]) + "/";
    const bool is_done = keep_all<std::uint32_t>(writes, folder + "u32") && keep_all<std::int32_t>(writes, folder + "i32") &&
                         keep_all<std::uint64_t>(writes, folder + "u64") && keep_all<std::int64_t>(writes, folder + "i64") &&
                         keep_all<range_set::uint128>(writes, folder + "u128") &&
                         keep_all<range_set::int128>(writes, folder + "i128");
    return is_done ? 0 : 1;
}
