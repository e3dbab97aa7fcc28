// Allocations that fail: the linker sends the library's calls of malloc and realloc here, and so go those of `new`.
#ifndef FAILURES_HPP
#define FAILURES_HPP

#include "check.hpp"

#include <new>

extern "C" {
void *real_malloc(std::size_t size) __asm__("__real_malloc");
void *real_realloc(void *block, std::size_t size) __asm__("__real_realloc");
void *wrap_malloc(std::size_t size) __asm__("__wrap_malloc");
void *wrap_realloc(void *block, std::size_t size) __asm__("__wrap_realloc");
}

// How many more allocations succeed before all fail. Below 0, none fails.
static int allowed = -1;

static bool refuses() {
    if (allowed > 0) {
        --allowed;
        return false;
    }
    return allowed == 0;
}

void *wrap_malloc(std::size_t size) { return refuses() ? nullptr : real_malloc(size); }

void *wrap_realloc(void *block, std::size_t size) { return refuses() ? nullptr : real_realloc(block, size); }

void operator delete(void *block, std::size_t) noexcept;

[[gnu::noinline]] void *operator new(std::size_t size) {
    void *block = refuses() ? nullptr : real_malloc(size);
    if (block == nullptr) {
        throw std::bad_alloc();
    }
    return block;
}

[[gnu::noinline]] void operator delete(void *block) noexcept { std::free(block); }

[[gnu::noinline]] void operator delete(void *block, std::size_t) noexcept { std::free(block); }

// Calls until no allocation fails: at first none succeeds, then one, and so on. After each failure,
// `a` and `b` must be as they were. Returns the number of failures.
template <class Set, class Call> static int failures(const Set &a, const Set &b, Call call) {
    const std::string a_before = text(a), b_before = text(b);
    for (int succeeding = 0;; ++succeeding) {
        allowed = succeeding;
        bool failed = throws<std::bad_alloc>(call);
        allowed = -1;
        if (!failed) {
            return succeeding;
        }
        CHECK(text(a) == a_before && text(b) == b_before);
    }
}

#endif
