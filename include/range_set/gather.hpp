// What may stand where a set takes values and runs, and how those of a list, a container or a range are
// gathered for the C library. range_set.hpp includes this file.
#ifndef RANGE_SET_GATHER_HPP
#define RANGE_SET_GATHER_HPP

#include "iterators.hpp"

#include <iterator>
#include <vector>

namespace range_set::detail {

template <class Given, class = void> inline constexpr bool steps = false;
template <class Given> inline constexpr bool
    steps<Given, std::void_t<decltype(*std::declval<Given &>()), decltype(++std::declval<Given &>()),
                             decltype(std::declval<const Given &>() != std::declval<const Given &>())>> = true;

template <class Given, class = void> inline constexpr bool has_ends = false;
template <class Given> inline constexpr bool has_ends<
    Given, std::void_t<decltype(std::begin(std::declval<Given &>())), decltype(std::end(std::declval<Given &>()))>> =
    true;

// What a set takes values and runs from: an iterator, or a container or another range. A value of the type is
// none, even if it looks like one.
template <class Type, class Given> inline constexpr bool is_iterator = steps<Given> && !is_value<Type, Given>;
template <class Type, class Given> inline constexpr bool is_range =
    has_ends<Given> && !is_value<Type, std::decay_t<Given>> && !is_run<Type, std::decay_t<Given>>;

// Two ends of a run, or two iterators.
template <class Type, class First, class Last> using if_bounds =
    std::enable_if_t<is_iterator<Type, First> || (is_value<Type, First> && is_value<Type, Last>)>;

// What is no set, and is a value, a run or a range.
template <class Type, class Set, class Given, class Plain = std::decay_t<Given>> using if_given =
    std::enable_if_t<!std::is_base_of_v<Set, Plain> &&
                     (is_range<Type, Given> || is_value<Type, Plain> || is_run<Type, Plain>)>;

// The right operand of an operator, unless it is a set.
template <class Type, class Set, class Right> using if_operand =
    std::enable_if_t<!std::is_base_of_v<Set, Right> && (is_value<Type, Right> || is_run<Type, Right>)>;

// The numbers of a value, or of the ends of a run.
template <class Type, class Given> typename calls<number_of<Type>>::run stored_run_of(const Given &given) {
    using c = calls<number_of<Type>>;
    if constexpr (is_run<Type, Given>) {
        const range_set::run<Type> &values = given;
        return {c::to_c(checked<Type>(values.first)), c::to_c(checked<Type>(values.last))};
    } else {
        const auto number = c::to_c(checked<Type>(given));
        return {number, number};
    }
}

// A value or a run in a list in braces.
template <class Type> struct item : calls<number_of<Type>>::run {
    using stored = typename calls<number_of<Type>>::run;

    item() noexcept : stored(stored_run_of<Type>(range_set::run<Type>())) {}
    template <class Given, class = std::enable_if_t<is_value<Type, Given> || is_run<Type, Given>>>
    item(const Given &given) : stored(stored_run_of<Type>(given)) {}
    template <class First, class Last, class = if_values<Type, First, Last>> item(const First &from, const Last &to)
        : stored(stored_run_of<Type>(range_set::run<Type>(from, to))) {}
};

// A value in a list in braces, where that list could also be a run.
template <class Type> struct plain_value {
    template <class Given, class = if_values<Type, Given>> plain_value(const Given &) noexcept {}
};

// Runs for the C library, in the order in which they were added. Neighbors are joined at once.
template <class Type> class gathered {
    using c = calls<number_of<Type>>;
    using stored_run = typename c::run;

public:
    template <class Given> void add(const Given &given) {
        const stored_run next = stored_run_of<Type>(given);
        const auto first = c::from_c(next.first), last = c::from_c(next.last);
        if (first > last) {
            return;
        }
        if (!runs_.empty()) {
            const auto before = c::from_c(runs_.back().last);
            if (first > before && first - before == 1) {
                runs_.back().last = next.last;
                return;
            }
        }
        runs_.push_back(next);
    }

    template <class First, class Last> void add_between(First at, const Last &end) {
        for (; at != end; ++at) {
            add(*at);
        }
    }

    template <class Range> void add_all(Range &range) {
        for (auto &&each : range) {
            add(each);
        }
    }

    const stored_run *runs() const noexcept { return runs_.data(); }
    std::size_t size() const noexcept { return runs_.size(); }

private:
    std::vector<stored_run> runs_;
};

// Copies the runs in a window to an array of `size` runs, and returns how many there are. It reads some of
// them at once from the C library.
template <class Type> std::size_t copy_runs(const typename calls<number_of<Type>>::handle &set,
                                            const typename calls<number_of<Type>>::run &window,
                                            range_set::run<Type> *runs, std::size_t size) {
    using c = calls<number_of<Type>>;
    constexpr std::size_t at_once = 64;
    typename c::run some[at_once];
    auto first = window.first;
    std::size_t copied = 0;
    while (copied < size) {
        const std::size_t wanted = size - copied < at_once ? size - copied : at_once;
        const std::size_t got = c::runs_in(&set, first, window.last, some, wanted);
        for (std::size_t i = 0; i < got; ++i) {
            runs[copied++] = walk_base<Type>::run_of(some[i]);
        }
        if (got < wanted || c::from_c(some[got - 1].last) >= c::from_c(window.last)) {
            break;
        }
        first = c::to_c(static_cast<number_of<Type>>(c::from_c(some[got - 1].last) + 1));
    }
    return copied;
}

} // namespace range_set::detail

#endif
