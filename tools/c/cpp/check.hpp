// What the tests of the C++ class share.
#ifndef CHECK_HPP
#define CHECK_HPP

#include <cstdio>
#include <cstdlib>
#include <sstream>
#include <string>

#define CHECK(...)                                                                         \
    do {                                                                                   \
        if (!(__VA_ARGS__)) {                                                              \
            std::fprintf(stderr, "%s:%d: not so: %s\n", __FILE__, __LINE__, #__VA_ARGS__); \
            std::exit(1);                                                                  \
        }                                                                                  \
    } while (0)

// Returns what `<<` writes.
template <class Value> std::string text(const Value &value) {
    std::ostringstream out;
    out << value;
    return out.str();
}

// Returns whether the call throws this error.
template <class Error, class Call> bool throws(Call call) {
    try {
        call();
    } catch (const Error &) {
        return true;
    }
    return false;
}

#endif
