// The C++ class without exceptions: compiled with -fno-exceptions, it works, and what would throw aborts.
#include "range_set.hpp"

#include <csetjmp>
#include <csignal>
#include <cstdio>
#include <cstdlib>
#include <vector>

static std::jmp_buf before_the_call;

[[noreturn]] static void aborted(int) { std::longjmp(before_the_call, 1); }

template <class Call> static void aborts(Call call) {
    std::signal(SIGABRT, aborted);
    if (setjmp(before_the_call) == 0) {
        call();
        std::fprintf(stderr, "a call does not abort\n");
        std::exit(1);
    }
}

static void holds(bool claim) {
    if (!claim) {
        std::fprintf(stderr, "the class answers otherwise without exceptions\n");
        std::exit(1);
    }
}

int main() {
    range_set::u32_set a{{1, 5}, {10, 20}}, b{{4, 12}};
    holds(a.insert(7) && !a.contains(-1) && (a & b).size() == 6 && a.clone() == a && a.gaps().begin()->last == 0);
    holds((a | b).contains(1, 20) && range_set::u32_set::union_of({a, b}).run_count() == 1);
    holds(range_set::u32_set::from_bytes(a.to_bytes()) == a && !range_set::u64_set::try_from_bytes(a.to_bytes()));
    aborts([&] { a.insert(-1); });
    aborts([&] { range_set::u64_set::from_bytes("RSB", 3); });
    aborts([&] { (~range_set::u64_set()).size(); });
    std::printf("the class compiles with -fno-exceptions, and aborts where it would throw\n");
    return 0;
}
