// A C++ class over the sets of range_set.h, for C++17 and later.
//
//     range_set::u64_set open{{9, 11}, {13, 18}}, busy{{10, 14}};
//     for (auto [first, last] : open - busy) { .. } // 9..=9, then 15..=18
//     range_set::set<int> odd{-3, -1, 1, 3};
//
// A set may hold integers of up to 128 bits, characters, enums, time points such as std::chrono::sys_days,
// and your own types: range_set/elements.hpp says how. u64_set is set<std::uint64_t>.
//
// The class fulfills the duties of range_set.h that are about handles and pointers, so you may combine
// a set with itself. The others are yours, such as this one on threads: while a call changes a set, no
// other call uses that set.
//
// Allocations: a call that makes or changes a set may allocate. If an allocation fails, the call throws
// std::bad_alloc and leaves each set unchanged. Reads and moves never allocate. There is no copy
// constructor and no copy assignment, since they would hide an allocation. Copy a set with
// `auto b = a.clone();` or `range_set::u64_set b(range_set::clone, a);`.
//
// Arguments: for a set of integers, a value may have any integer type, and so may a number of values. For a
// set of characters, a value may have any character type or integer type. For other sets, a value has the
// type of the set, or converts to it implicitly. If a value is below the least one of the type or above the
// greatest one, the call throws std::out_of_range and leaves each set unchanged. contains, count, find,
// lower_bound, upper_bound, is_disjoint and intersects do not: such a value is no member. These types are
// refused at compile time for a set of integers: bool, character types, floating-point types and enums.
// signed char and unsigned char are allowed, since std::int8_t and std::uint8_t are these types. A call that
// reads a set is noexcept if its argument types rule out such a value. Only size() is not.
//
// Without exceptions, as with -fno-exceptions, a call that would throw calls std::abort.
//
// Runs: first and last mean all values between them, both included. If last is below first, they mean no
// value. They are two arguments, a range_set::run, a std::pair, or a pair in braces in a list in braces.
// In a list in braces, a single value means itself: `{1, 5}` has two members, and `{{1, 5}}` has five.
// Where `{1, 5}` could be either, it is refused (docs/DECISIONS.md, two-values-in-braces).
#ifndef RANGE_SET_HPP
#define RANGE_SET_HPP

#if __cplusplus < 201703L && (!defined(_MSVC_LANG) || _MSVC_LANG < 201703L)
#error range_set.hpp needs C++17 or later: compile with -std=c++17
#else

#include "range_set/bytes.hpp"
#include "range_set/gather.hpp"
#include "range_set/iterators.hpp"
#include "range_set/text.hpp"

#include <initializer_list>
#include <new>
#include <optional> // and std::hash
#if __cplusplus > 201703L && __has_include(<ranges>)
#include <ranges>
#endif

namespace range_set {

// The tag of the constructor that copies.
struct clone_t {
    explicit clone_t() = default;
};
inline constexpr clone_t clone{};

// A set of values of an element type.
template <class Type> class set {
    static_assert(
        detail::is_element<Type>,
        "range_set::set holds integers of up to 128 bits, bool, characters, enums, and time points and durations "
        "of std::chrono. For a type of your own, specialize range_set::element.");
    static_assert(detail::ranked<Type>::is_unsigned, "range_set::element<Type>::rank returns an unsigned integer");

    using number_type = detail::number_of<Type>;
    using c = detail::calls<number_type>;
    using stored_run = typename c::run;
    using run_walk = detail::run_walk<Type>;
    using gap_walk = detail::gap_walk<Type>;
    using member_walk = detail::member_walk<Type>;
    using window_walk = detail::window_walk<Type>;
    using refused_list = std::initializer_list<detail::plain_value<Type>>;
    template <class... Arguments> static constexpr bool fits = (detail::always_fits<Type, Arguments> && ...);
    template <class... Arguments> static constexpr bool asks = (detail::never_throws<Type, Arguments> && ...);

public:
    using run = range_set::run<Type>;
    using element_type = Type;
    using key_type = Type;
    using value_type = run;
    using reference = run;
    using const_reference = run;
    using size_type = std::uint64_t;
    using rank_type = detail::rank_of<number_type>; // std::uint64_t, or range_set::uint128 for types of 128 bits
    using difference_type = std::ptrdiff_t;
    using iterator = detail::iterator<run_walk>;
    using const_iterator = iterator;
    using reverse_iterator = detail::iterator<detail::reversed<run_walk>>;
    using const_reverse_iterator = reverse_iterator;
    using list = std::initializer_list<detail::item<Type>>; // values and runs in braces

    // ---- Construct, copy, move.

    // The empty set, which owns no memory.
    set() noexcept = default;
    ~set() { c::free(&handle_); }

    // The values and the members of the runs, which may overlap and come in any order: `a{1, 2, 7}`,
    // `a{{1, 5}, {10, 20}}`.
    set(list items) : set() { assign(items.begin(), items.size()); }

    // The values from first to last, or what is between two iterators: values or runs.
    template <class First, class Last, class = detail::if_bounds<Type, First, Last>>
    set(const First &first, const Last &last) : set() {
        if constexpr (detail::is_iterator<Type, First>) {
            detail::gathered<Type> all;
            all.add_between(first, last);
            assign(all.runs(), all.size());
        } else {
            insert(run(first, last));
        }
    }

    // One value, the members of one run, or what is in a container or a range: values or runs.
    template <class Given, class = detail::if_given<Type, set, Given>> explicit set(Given &&given) : set() {
        detail::gathered<Type> all;
        if constexpr (detail::is_range<Type, Given>) {
            all.add_all(given);
        } else {
            all.add(given);
        }
        assign(all.runs(), all.size());
    }

    // The members of the runs of an array, by one call of the C library.
    template <class Count> static set from_runs(const run *runs, Count count) {
        const auto size = detail::checked<std::size_t>(count);
        set out;
        if constexpr (std::is_base_of_v<stored_run, run>) {
            static_assert(sizeof(run) == sizeof(stored_run), "the C library reads an array of runs");
            out.assign(runs, size);
        } else {
            detail::gathered<Type> all;
            all.add_between(runs, runs + size);
            out.assign(all.runs(), all.size());
        }
        return out;
    }

    // The same as the constructors.
    template <class Range> static set from_runs(const Range &runs) { return set(runs); }
    static set from_runs(list runs) { return set(runs); }

    set(const set &) = delete;            // a copy allocates: write b = a.clone(), not b = a
    set &operator=(const set &) = delete; // a copy allocates: write b = a.clone(), not b = a
    set(clone_t, const set &copied) : set() { changed(c::clone(&handle_, &copied.handle_)); }
    set clone() const { return set(clone_t(), *this); }

    // A moved set takes all memory of the other, which is empty afterwards.
    set(set &&other) noexcept : handle_(std::exchange(other.handle_, {})) {}

    set &operator=(set &&other) noexcept {
        set taken(std::move(other));
        swap(taken);
        return *this;
    }

    void swap(set &other) noexcept { std::swap(handle_, other.handle_); }
    friend void swap(set &left, set &right) noexcept { left.swap(right); }

    // ---- Change. Each call returns whether it changed the set.

    // Adds a value, a run or a set. Does not allocate if there is nothing to add. For a run, does not
    // allocate either if its first value, or the value before that, is a member.
    template <class Added> bool insert(const Added &added) {
        if constexpr (std::is_base_of_v<set, Added>) {
            return changed(c::union_with(&handle_, &static_cast<const set &>(added).handle_));
        } else if constexpr (detail::is_run<Type, Added>) {
            const stored_run at = stored(added);
            return changed(c::insert_range(&handle_, at.first, at.last));
        } else if constexpr (detail::is_range<Type, Added>) {
            static_assert(!detail::is_range<Type, Added>,
                          "To insert what is in a container, write insert_range(container).");
            return false;
        } else {
            return changed(c::insert(&handle_, number(added)));
        }
    }

    bool insert(const set &added) { return insert<set>(added); }
    bool insert(refused_list) = delete; // {1, 5} may mean a run or two values: write insert(1, 5), or insert({{1, 5}})

    // Adds the values from first to last, or what is between two iterators.
    template <class First, class Last> bool insert(const First &first, const Last &last) {
        if constexpr (detail::is_iterator<Type, First>) {
            return insert(set(first, last));
        } else {
            return insert(run(first, last));
        }
    }

    // Adds what is in a container or a range: values or runs.
    template <class Range> bool insert_range(const Range &added) { return insert(set(added)); }

    // Removes a value, a run or the members of a set. Does not allocate if there is nothing to remove. For a
    // run, does not allocate either if the value after its last one is not a member or does not exist.
    template <class Removed> bool remove(const Removed &removed) {
        if constexpr (std::is_base_of_v<set, Removed>) {
            return changed(c::subtract(&handle_, &static_cast<const set &>(removed).handle_));
        } else if constexpr (detail::is_run<Type, Removed>) {
            const stored_run at = stored(removed);
            return changed(c::remove_range(&handle_, at.first, at.last));
        } else if constexpr (detail::is_range<Type, Removed>) {
            static_assert(!detail::is_range<Type, Removed>,
                          "To remove what is in a container, write remove(set(container)).");
            return false;
        } else {
            return changed(c::remove(&handle_, number(removed)));
        }
    }

    bool remove(const set &removed) { return remove<set>(removed); }
    bool remove(refused_list) = delete; // {1, 5} may mean a run or two values: write remove(1, 5), or remove({{1, 5}})
    template <class First, class Last> bool remove(const First &first, const Last &last) {
        return remove(run(first, last));
    }

    // The same as remove.
    template <class Removed> bool erase(const Removed &removed) { return remove(removed); }
    bool erase(const set &removed) { return remove(removed); }
    bool erase(refused_list) = delete; // {1, 5} may mean a run or two values: write erase(1, 5), or erase({{1, 5}})
    template <class First, class Last> bool erase(const First &first, const Last &last) { return remove(first, last); }

    // Removes the run of an iterator, and returns an iterator to the next run.
    iterator erase(iterator at) {
        changed(c::remove_range(&handle_, at.at_.first, at.at_.last));
        return ++at;
    }

    // Removes all members, but keeps a block of memory for later ones. Returns nothing.
    void clear() noexcept { c::clear(&handle_); }

    // ---- Set algebra: union, intersection, difference, symmetric difference and complement. The right
    // operand is a set, a run or a value: `a - b`, `a | 3`, `a &= range_set::run<int>(1, 5)`, `a ^= {{1, 5}}`.

    // These do not allocate if they change nothing.
    set &operator|=(const set &right) { return changed_by(c::union_with, right); }
    set &operator&=(const set &right) { return changed_by(c::intersect_with, right); }
    set &operator-=(const set &right) { return changed_by(c::subtract, right); }
    set &operator^=(const set &right) { return changed_by(c::xor_with, right); }
    set &operator|=(refused_list) = delete; // {1, 5} may mean a run or two values: write a |= {{1, 5}}, or name a set
    set &operator&=(refused_list) = delete; // {1, 5} may mean a run or two values: write a &= {{1, 5}}, or name a set
    set &operator-=(refused_list) = delete; // {1, 5} may mean a run or two values: write a -= {{1, 5}}, or name a set
    set &operator^=(refused_list) = delete; // {1, 5} may mean a run or two values: write a ^= {{1, 5}}, or name a set

    // With a run or a value at the right, `|=` inserts it and `-=` removes it. `&=` and `^=` first make a
    // set of it.
    template <class Right, class = detail::if_operand<Type, set, Right>> set &operator|=(const Right &right) {
        insert(right);
        return *this;
    }

    template <class Right, class = detail::if_operand<Type, set, Right>> set &operator-=(const Right &right) {
        remove(right);
        return *this;
    }

    template <class Right, class = detail::if_operand<Type, set, Right>> set &operator&=(const Right &right) {
        return *this &= set(right);
    }

    template <class Right, class = detail::if_operand<Type, set, Right>> set &operator^=(const Right &right) {
        return *this ^= set(right);
    }

    // Each of these returns a new set, which is allocated.
    friend set operator|(const set &left, const set &right) { return combined(c::either, left, right); }
    friend set operator&(const set &left, const set &right) { return combined(c::both, left, right); }
    friend set operator-(const set &left, const set &right) { return combined(c::left_alone, left, right); }
    friend set operator^(const set &left, const set &right) { return combined(c::one_alone, left, right); }
    set operator~() const { return up_to_greatest(made(c::complement)); }

    template <class Right, class = detail::if_operand<Type, set, Right>>
    friend set operator|(const set &left, const Right &right) {
        return left | set(right);
    }

    template <class Right, class = detail::if_operand<Type, set, Right>>
    friend set operator&(const set &left, const Right &right) {
        return left & set(right);
    }

    template <class Right, class = detail::if_operand<Type, set, Right>>
    friend set operator-(const set &left, const Right &right) {
        return left - set(right);
    }

    template <class Right, class = detail::if_operand<Type, set, Right>>
    friend set operator^(const set &left, const Right &right) {
        return left ^ set(right);
    }

    // ---- Set algebra on any number of sets: in braces, as in `u64_set::union_of({a, b, c})`, or in a
    // container. Each copies the sets into a list of the C library, and returns a new set.

    // A set in braces.
    class operand {
    public:
        operand(const set &given) noexcept : set_(&given) {}
        operator const set &() const noexcept { return *set_; }

    private:
        const set *set_;
    };

    using operands = std::initializer_list<operand>;

    // The values in at least one of the sets.
    template <class Sets = operands> static set union_of(const Sets &sets) { return made_of(c::sets_union, sets); }

    // The values in all of the sets. If there are no sets, this is every value.
    template <class Sets = operands> static set intersection_of(const Sets &sets) {
        return up_to_greatest(made_of(c::sets_intersection, sets));
    }

    // The values in an odd number of the sets.
    template <class Sets = operands> static set symmetric_difference_of(const Sets &sets) {
        return made_of(c::sets_symmetric_difference, sets);
    }

    // The values in at least k of the sets. If k is 0, this is every value.
    template <class Count, class Sets = operands> static set at_least(Count k, const Sets &sets) {
        return up_to_greatest(made_of(c::sets_at_least, sets, detail::checked<std::size_t>(k)));
    }

    // ---- Go over a set in ascending order or, with rbegin and rend, in descending order. This ends for
    // every set, even if the greatest value is a member. Each step searches the set, in logarithmic time.
    //
    // An iterator returns a copy: `*iterator` is not a reference. Otherwise it is a
    // LegacyBidirectionalIterator, and a std::bidirectional_iterator in C++20. It is valid until the set is
    // moved, swapped or destroyed. A change of the set also invalidates iterators over gaps and members.
    // It does not invalidate those over runs: ++ goes to the first run that starts after the iterator's
    // run, and -- goes to the last run that ends before it.

    // The runs: `for (auto run : a)`.
    iterator begin() const noexcept { return runs().begin(); }
    iterator end() const noexcept { return runs().end(); }
    reverse_iterator rbegin() const noexcept { return runs().rbegin(); }
    reverse_iterator rend() const noexcept { return runs().rend(); }

    // A view of the runs, with begin, end, rbegin, rend, empty and size. It is a view in C++20. Each view
    // refers to its set and copies nothing. So a temporary set has no views: give it a name first.
    detail::view<run_walk> runs() const & noexcept { return detail::view<run_walk>(handle_); }
    detail::view<run_walk> runs() const && = delete; // the set would end before its view: give it a name first

    // The same as runs().
    detail::view<run_walk> ranges() const & noexcept { return runs(); }
    detail::view<run_walk> ranges() const && = delete; // the set would end before its view: give it a name first

    // A view of the gaps, which are the runs of the complement.
    detail::view<gap_walk> gaps() const & noexcept { return detail::view<gap_walk>(handle_); }
    detail::view<gap_walk> gaps() const && = delete; // the set would end before its view: give it a name first

    // A view of the members, one by one. Only a step to another run searches the set.
    detail::view<member_walk> members() const & noexcept { return detail::view<member_walk>(handle_); }
    detail::view<member_walk> members() const && = delete; // the set would end before its view: give it a name first

    // The same as members().
    detail::view<member_walk> values() const & noexcept { return members(); }
    detail::view<member_walk> values() const && = delete; // the set would end before its view: give it a name first

    // A view of the runs of the members in a window, from its first to its last value. A run that crosses
    // an end of the window is shortened to its part inside. The view has no size().
    detail::view<window_walk> runs_in(const run &within) const & {
        return detail::view<window_walk>(handle_, window_walk(stored(within)));
    }

    template <class First, class Last> detail::view<window_walk> runs_in(const First &first, const Last &last) const & {
        return runs_in(run(first, last));
    }

    detail::view<window_walk>
    runs_in(const run &) const && = delete; // the set would end too early: give it a name first
    template <class First, class Last>
    detail::view<window_walk> runs_in(const First &, const Last &) const && = delete; // see above: give it a name first

    // Calls `each` on each run, in ascending order.
    template <class Each> void runs(Each each) const {
        for (const run at : *this) {
            each(at);
        }
    }

    // ---- Ask about values.

    // Whether the value, each value of the run, or each member of the set, is a member.
    template <class Asked> bool contains(const Asked &asked) const noexcept(asks<Asked>) {
        if constexpr (std::is_base_of_v<set, Asked>) {
            return is_superset(asked);
        } else if constexpr (detail::is_run<Type, Asked>) {
            const run values = asked;
            return contains(values.first, values.last);
        } else {
            const auto at = detail::position_of<Type>(asked);
            return at.side == 0 && c::contains(&handle_, c::to_c(at.number));
        }
    }

    bool contains(refused_list) const = delete; // {1, 5} may mean a run or two values: write contains(1, 5)

    // Whether each value from first to last is a member.
    template <class First, class Last> bool contains(const First &first, const Last &last) const
        noexcept(asks<First, Last>) {
        const auto from = detail::position_of<Type>(first), to = detail::position_of<Type>(last);
        if (from.side == 0 && to.side == 0) {
            return c::contains_range(&handle_, c::to_c(from.number), c::to_c(to.number));
        }
        return detail::is_reversed<Type>(first, last, from, to);
    }

    // 1 if the value is a member, and 0 otherwise.
    template <class Value> std::size_t count(const Value &value) const noexcept(asks<Value>) {
        return contains(value) ? 1 : 0;
    }

    // Whether no member of this set is a value of the run, is the value, or is in the other set.
    template <class Asked> bool is_disjoint(const Asked &asked) const noexcept(asks<Asked>) {
        if constexpr (detail::is_run<Type, Asked>) {
            const run values = asked;
            return is_disjoint(values.first, values.last);
        } else {
            return !contains(asked);
        }
    }

    bool is_disjoint(const set &other) const noexcept { return c::is_disjoint(&handle_, &other.handle_); }
    bool is_disjoint(refused_list) const = delete; // {1, 5} may mean a run or two values: write is_disjoint(1, 5)

    // Whether no value from first to last is a member.
    template <class First, class Last> bool is_disjoint(const First &first, const Last &last) const
        noexcept(asks<First, Last>) {
        const auto from = detail::position_of<Type>(first), to = detail::position_of<Type>(last);
        if (from.side > 0 || to.side < 0 || detail::is_reversed<Type>(first, last, from, to)) {
            return true;
        }
        return c::is_disjoint_range(&handle_, c::to_c(from.side == 0 ? from.number : number_type{0}),
                                    c::to_c(to.side == 0 ? to.number : greatest()));
    }

    // Whether some member of this set is a value of the run, is the value, or is in the other set.
    template <class Asked> bool intersects(const Asked &asked) const noexcept(asks<Asked>) {
        return !is_disjoint(asked);
    }

    bool intersects(const set &other) const noexcept { return !is_disjoint(other); }
    bool intersects(refused_list) const = delete; // {1, 5} may mean a run or two values: write intersects(1, 5)
    template <class First, class Last> bool intersects(const First &first, const Last &last) const
        noexcept(asks<First, Last>) {
        return !is_disjoint(first, last);
    }

    // The least and the greatest member.
    std::optional<Type> first() const noexcept(fits<Type>) { return member(c::first); }
    std::optional<Type> last() const noexcept(fits<Type>) { return member(c::last); }

    // The same, but these throw std::out_of_range if the set is empty.
    Type front() const { return some(first()); }
    Type back() const { return some(last()); }

    // ---- Count.

    bool empty() const noexcept { return run_count() == 0; }
    bool is_empty() const noexcept { return run_count() == 0; } // the same, under the name of range_set.h
    std::size_t run_count() const noexcept { return c::run_count(&handle_); }

    // The number of members, not of runs. Throws std::overflow_error if it is 2^64 or more.
    std::uint64_t size() const { return range_set::count(len()).value(); }

    // The number of members, and of those in a run: a std::uint64_t for types of up to 32 bits, and otherwise
    // a range_set::count, since it may be 2^64 or more. For a run, takes a step for each run in it.
    auto len() const noexcept { return length(c::len(&handle_)); }
    auto len(const run &within) const noexcept(fits<Type>) {
        const stored_run at = stored(within);
        return length(c::len_in(&handle_, at.first, at.last));
    }

    template <class First, class Last> auto len(const First &first, const Last &last) const
        noexcept(fits<First, Last>) {
        return len(run(first, last));
    }

    // The number of members below the value, which need not be a member. Takes a step for each run up to
    // it.
    template <class Value> rank_type rank(const Value &value) const noexcept(fits<Value>) {
        return detail::as_rank(c::rank(&handle_, number(value)));
    }

    // The member with n members below it. Takes a step for each run up to it.
    template <class Count> std::optional<Type> nth(Count n) const noexcept(detail::always_fits<rank_type, Count>) {
        const auto place = detail::calls<rank_type>::to_c(detail::checked<rank_type>(n));
        return member([place](const auto *handle, auto *value) { return c::nth(handle, place, value); });
    }

    // ---- Search.

    // An iterator over runs: to the run that contains the value, or the end.
    template <class Value> iterator find(const Value &value) const noexcept(asks<Value>) {
        const auto at = detail::position_of<Type>(value);
        iterator found = end();
        found.inside_ = at.side == 0 && c::run_or_gap(&handle_, c::to_c(at.number), &found.at_);
        return found;
    }

    // An iterator over runs: to the run that contains the value or otherwise the first run after it, or to
    // the first run that starts after the value; or the end. They are the ends of the runs that a window
    // meets: from lower_bound of its first value to upper_bound of its last one.
    template <class Value> iterator lower_bound(const Value &value) const noexcept(asks<Value>) {
        return bound(c::next_run, detail::position_of<Type>(value));
    }

    template <class Value> iterator upper_bound(const Value &value) const noexcept(asks<Value>) {
        return bound(c::run_after, detail::position_of<Type>(value));
    }

    // The run that contains the value, and true; or the gap that contains it, and false.
    template <class Value> std::pair<run, bool> run_or_gap(const Value &value) const noexcept(fits<Value>) {
        stored_run block;
        const bool is_run = c::run_or_gap(&handle_, number(value), &block);
        gap_walk::clip(block);
        return {run_walk::run_of(block), is_run};
    }

    // The run that contains the value, or otherwise the first run after it or the last run before it.
    template <class Value> std::optional<run> next_run(const Value &from) const noexcept(fits<Value>) {
        return found(c::next_run, number(from));
    }

    template <class Value> std::optional<run> prev_run(const Value &from) const noexcept(fits<Value>) {
        return found(c::prev_run, number(from));
    }

    // The first run that starts after the value, or the last run that ends before it.
    template <class Value> std::optional<run> run_after(const Value &value) const noexcept(fits<Value>) {
        return found(c::run_after, number(value));
    }

    template <class Value> std::optional<run> run_before(const Value &value) const noexcept(fits<Value>) {
        return found(c::run_before, number(value));
    }

    // The run with the least members, and the run with the greatest members.
    std::optional<run> first_run() const noexcept(fits<Type>) { return found(c::next_run, run_walk::least()); }
    std::optional<run> last_run() const noexcept(fits<Type>) { return found(c::prev_run, run_walk::greatest()); }

    // The gap that contains the value, or otherwise the first gap after it or the last gap before it.
    template <class Value> std::optional<run> next_gap(const Value &from) const noexcept(fits<Value>) {
        return found(c::next_gap, number(from));
    }

    template <class Value> std::optional<run> prev_gap(const Value &from) const noexcept(fits<Value>) {
        return found(c::prev_gap, number(from));
    }

    // The first gap that starts after the value, or the last gap that ends before it.
    template <class Value> std::optional<run> gap_after(const Value &value) const noexcept(fits<Value>) {
        return found(c::gap_after, number(value));
    }

    template <class Value> std::optional<run> gap_before(const Value &value) const noexcept(fits<Value>) {
        return found(c::gap_before, number(value));
    }

    // Stores the runs of the members between the ends of `within` in an array, in ascending order, until
    // `count` of them are stored or none is left, and returns how many it stored. A run that crosses an end
    // is shortened to its part between the ends. The rest of the array is unchanged. The call searches the
    // set once for many runs, so it reads them faster than an iterator does.
    template <class Count> std::size_t runs_in(const run &within, run *runs, Count count) const
        noexcept(fits<Type> && detail::always_fits<std::size_t, Count>) {
        const auto size = detail::checked<std::size_t>(count);
        if constexpr (std::is_base_of_v<stored_run, run>) {
            static_assert(sizeof(run) == sizeof(stored_run), "the C library writes an array of runs");
            return c::runs_in(&handle_, within.first, within.last, runs, size);
        } else {
            return detail::copy_runs<Type>(handle_, stored(within), runs, size);
        }
    }

    // The first run with at least `len` members at or after `from`, without its part before `from`. Takes a
    // step for each run between them. In the set of what is free, this finds room.
    template <class Value, class Count> std::optional<run> first_run_of(const Value &from, Count len) const
        noexcept(fits<Value> && detail::always_fits<rank_type, Count>) {
        const auto wanted = detail::calls<rank_type>::to_c(detail::checked<rank_type>(len));
        stored_run at;
        const bool exists = c::first_run_of(&handle_, number(from), wanted, &at);
        return exists ? std::optional<run>(run_walk::run_of(at)) : std::nullopt;
    }

    // The first gap with at least `len` values at or after `from`, without its part before `from`. Takes
    // a step for each run between them.
    template <class Value, class Count> std::optional<run> first_gap(const Value &from, Count len) const
        noexcept(fits<Value> && detail::always_fits<rank_type, Count>) {
        const auto wanted = detail::checked<rank_type>(len);
        stored_run gap;
        if (!c::first_gap(&handle_, number(from), detail::calls<rank_type>::to_c(wanted), &gap) ||
            !gap_walk::clip(gap)) {
            return std::nullopt;
        }
        const bool is_short = wanted > 0 && c::from_c(gap.last) - c::from_c(gap.first) < wanted - 1;
        return is_short ? std::nullopt : std::optional<run>(run_walk::run_of(gap));
    }

    // ---- Compare.

    // Whether each member of this set is in the other one, or each member of the other one in this set.
    bool is_subset(const set &other) const noexcept { return c::is_subset(&handle_, &other.handle_); }
    bool is_superset(const set &other) const noexcept { return other.is_subset(*this); }

    // A number below 0, equal to 0 or above 0. Sets compare as the ascending lists of their members do,
    // here and with <, <=, > and >=. A subset need not be less.
    int order(const set &other) const noexcept { return c::order(&handle_, &other.handle_); }

    // Whether both have the same members.
    friend bool operator==(const set &left, const set &right) noexcept {
        return c::equal(&left.handle_, &right.handle_);
    }

    friend bool operator!=(const set &left, const set &right) noexcept { return !(left == right); }
    friend bool operator<(const set &left, const set &right) noexcept { return left.order(right) < 0; }
    friend bool operator<=(const set &left, const set &right) noexcept { return left.order(right) <= 0; }
    friend bool operator>(const set &left, const set &right) noexcept { return left.order(right) > 0; }
    friend bool operator>=(const set &left, const set &right) noexcept { return left.order(right) >= 0; }

    // ---- Text: the runs, as in `1..=5, 10..=20`, or nothing for the empty set. Characters are numbers in it.
    // Other values than integers and characters are written by their own <<, and not read.

    // Include <ostream> to use it.
    template <class Char, class Traits>
    friend std::basic_ostream<Char, Traits> &operator<<(std::basic_ostream<Char, Traits> &out, const set &written) {
        const char *before = "";
        for (auto each : written) {
            out << before << each;
            before = ", ";
        }
        return out;
    }

    // Returns the text. Without <ostream>, only sets of integers and characters have one.
    std::string to_text() const {
        static_assert(detail::is_read<Type> || !detail::is_element<Type>,
                      "to_text writes integers and characters: use <<");
        std::string text;
        if constexpr (detail::is_read<Type>) {
            using digits = detail::digits<detail::number_in_text<Type>>;
            for (const auto &[first, last] : *this) {
                text.append(text.empty() ? "" : ", ")
                    .append(digits(first).view())
                    .append("..=")
                    .append(digits(last).view());
            }
        }
        return text;
    }

    // Returns the set that a text lists: runs and single values in any order, as in `7, 10..=20, 15..=30`.
    // Throws std::invalid_argument if the text does not list runs of this type.
    static set parse(std::string_view text) {
        std::size_t unexpected = 0;
        std::optional<set> read = try_parse(text, &unexpected);
        if (!read) {
            RANGE_SET_THROW(std::invalid_argument(
                "range_set: the text lists no runs of this type: it is wrong at byte " + std::to_string(unexpected)));
        }
        return std::move(*read);
    }

    // The same, under the name of range_set.h.
    static set from_text(std::string_view text) { return parse(text); }

    // The same, but returns nothing if the text does not list runs, and stores the position of the first
    // unexpected byte, or the length of the text if it ends too early.
    static std::optional<set> try_parse(std::string_view text, std::size_t *unexpected = nullptr) {
        detail::reader<Type> reader(text);
        std::vector<stored_run> runs;
        if (!reader.read(runs)) {
            if (unexpected != nullptr) {
                *unexpected = reader.at();
            }
            return std::nullopt;
        }
        std::optional<set> made(std::in_place);
        made->assign(runs.data(), runs.size());
        return made;
    }

    // Reads a line, which lists runs as above. If it does not, sets failbit and leaves the set unchanged.
    // Include <istream> to use it.
    template <class Traits>
    friend std::basic_istream<char, Traits> &operator>>(std::basic_istream<char, Traits> &in, set &read) {
        std::basic_string<char, Traits> line;
        if (std::getline(in, line)) {
            std::optional<set> made = try_parse(std::string_view(line.data(), line.size()));
            if (made) {
                read = std::move(*made);
            } else {
                in.setstate(in.failbit);
            }
        }
        return in;
    }

    // ---- Bytes, in the format of docs/FORMAT.md. They have the ranks of the members, counted from the least
    // value of the type, and the number of bits that the set stores of each: 32, 64 or 128. Equal sets of a type
    // have equal bytes, on every machine.

    // Returns the bytes, which from_bytes reads.
    std::vector<unsigned char> to_bytes() const {
        constexpr std::size_t of_run = 2 * ((8 * sizeof(number_type) + 6) / 7);
        std::vector<unsigned char> bytes(run_count() * of_run + 16);
        std::size_t size = 0;
        changed(c::to_bytes(&handle_, bytes.data(), bytes.size(), &size));
        return std::vector<unsigned char>(bytes.data(), bytes.data() + size);
    }

    // Returns the set that has these bytes: those from a pointer on, or all of a std::vector, std::string,
    // std::string_view, std::span or the like. Throws std::invalid_argument if they are those of no set of this
    // type.
    template <class Byte, class = detail::if_byte<Byte>> static set from_bytes(const Byte *bytes, std::size_t size) {
        bytes_fault fault;
        std::optional<set> read = try_from_bytes(bytes, size, &fault);
        if (!read) {
            RANGE_SET_THROW(std::invalid_argument("range_set: the bytes are no set of this type: byte " +
                                                  std::to_string(fault.position) +
                                                  " is wrong: " + detail::text_of(fault.reason)));
        }
        return std::move(*read);
    }

    template <class Bytes, class = detail::if_bytes<Bytes>> static set from_bytes(const Bytes &bytes) {
        return from_bytes(bytes.data(), bytes.size());
    }

    // The same, but returns nothing if the bytes are those of no set of this type, and stores which one is wrong
    // and why. Allocates memory only for runs that were read, whatever count of runs the bytes announce.
    template <class Byte, class = detail::if_byte<Byte>>
    static std::optional<set> try_from_bytes(const Byte *bytes, std::size_t size, bytes_fault *fault = nullptr) {
        const auto *const start = reinterpret_cast<const unsigned char *>(bytes);
        std::optional<set> made(std::in_place);
        std::size_t end = size;
        std::uint32_t reason = 0;
        changed(c::from_bytes(&made->handle_, start, size, &end, &reason));
        if (greatest() != detail::greatest_of<number_type>()) {
            const std::size_t past = detail::bounded_reader<number_type>(start, end).first_past(greatest());
            if (past < end) {
                end = past;
                reason = RSB_PAST_GREATEST;
            }
        }
        if (reason != 0) {
            made.reset();
            if (fault != nullptr) {
                *fault = {end, static_cast<bytes_reason>(reason)};
            }
        }
        return made;
    }

    template <class Bytes, class = detail::if_bytes<Bytes>>
    static std::optional<set> try_from_bytes(const Bytes &bytes, bytes_fault *fault = nullptr) {
        return try_from_bytes(bytes.data(), bytes.size(), fault);
    }

private:
    friend struct std::hash<set>;

    static number_type greatest() noexcept { return detail::ranked<Type>::greatest(); }

    template <class Argument>
    static constexpr typename c::value number(const Argument &argument) noexcept(fits<Argument>) {
        return c::to_c(detail::checked<Type>(argument));
    }

    static constexpr stored_run stored(const run &given) noexcept(fits<Type>) {
        return {number(given.first), number(given.last)};
    }

    static range_set::count length(const range_set::count &members) noexcept { return members; }
    static std::uint64_t length(std::uint64_t members) noexcept { return members; }

    static bool changed(std::uint32_t answer) {
        if (answer == RSB_NO_MEMORY) {
            RANGE_SET_THROW(std::bad_alloc());
        }
        return answer == RSB_CHANGED;
    }

    // Makes this set, which is empty, that of an array of runs.
    void assign(const stored_run *runs, std::size_t size) { changed(c::from_runs(&handle_, runs, size)); }

    // Removes the numbers above the greatest value, which needs no memory.
    static set up_to_greatest(set given) {
        if (greatest() != detail::greatest_of<number_type>()) {
            const auto beyond = static_cast<number_type>(greatest() + 1);
            changed(c::remove_range(&given.handle_, c::to_c(beyond), c::to_c(detail::greatest_of<number_type>())));
        }
        return given;
    }

    template <class Call> std::optional<run> found(Call call, typename c::value number) const {
        stored_run at;
        const bool exists = call(&handle_, number, &at) && gap_walk::clip(at);
        return exists ? std::optional<run>(run_walk::run_of(at)) : std::nullopt;
    }

    template <class Call> std::optional<Type> member(Call call) const {
        typename c::value value{};
        const bool exists = call(&handle_, &value);
        return exists ? std::optional<Type>(run_walk::value_of(value)) : std::nullopt;
    }

    static Type some(const std::optional<Type> &value) {
        if (!value) {
            RANGE_SET_THROW(std::out_of_range("range_set: the set is empty"));
        }
        return *value;
    }

    template <class Call> iterator bound(Call call, detail::position<Type> at) const noexcept {
        if (at.side < 0) {
            return begin();
        }
        iterator found = end();
        found.inside_ = at.side == 0 && call(&handle_, c::to_c(at.number), &found.at_);
        return found;
    }

    template <class Call> set made(Call call) const {
        set out;
        changed(call(&out.handle_, &handle_));
        return out;
    }

    template <class Call> set &changed_by(Call call, const set &right) {
        changed(call(&handle_, &right.handle_));
        return *this;
    }

    template <class Call> static set combined(Call call, const set &left, const set &right) {
        set out;
        changed(call(&out.handle_, &left.handle_, &right.handle_));
        return out;
    }

    // Copies of sets, in a list of the C library.
    struct copied_sets {
        typename c::list copies{};

        copied_sets() noexcept = default;
        copied_sets(const copied_sets &) = delete;
        copied_sets &operator=(const copied_sets &) = delete;
        ~copied_sets() { c::sets_free(&copies); }
    };

    template <class Call, class Sets, class... Count> static set made_of(Call call, const Sets &sets, Count... k) {
        copied_sets all;
        for (const set &each : sets) {
            changed(c::sets_add(&all.copies, &each.handle_));
        }
        set out;
        changed(call(&out.handle_, &all.copies, k...));
        return out;
    }

    typename c::handle handle_{};
};

// The type of a set from values in braces: `set{1, 2, 3}` is a set of int.
template <class First, class... Others,
          class = std::enable_if_t<detail::is_element<First> && (std::is_same_v<First, Others> && ...)>>
set(First, Others...) -> set<First>;
template <class Type> set(const run<Type> &) -> set<Type>;

using u64_set = set<std::uint64_t>;
using u32_set = set<std::uint32_t>;
using i64_set = set<std::int64_t>;
using i32_set = set<std::int32_t>;
#ifdef RANGE_SET_HAS_128
using u128_set = set<uint128>;
using i128_set = set<int128>;
#endif

} // namespace range_set

// Equal sets have equal hashes. Takes a step for each run.
template <class Type> struct std::hash<range_set::set<Type>> {
    std::size_t operator()(const range_set::set<Type> &hashed) const noexcept {
        using c = typename range_set::set<Type>::c;
        std::uint64_t mixed = 1;
        typename c::run at;
        for (bool more = c::next_run(&hashed.handle_, c::to_c(0), &at); more;
             more = c::run_after(&hashed.handle_, at.last, &at)) {
            mixed = with(with(mixed, c::from_c(at.first)), c::from_c(at.last));
        }
        return static_cast<std::size_t>(mixed);
    }

private:
    template <class Number> static std::uint64_t with(std::uint64_t mixed, Number number) noexcept {
        if constexpr (sizeof(Number) > sizeof mixed) {
            mixed = mix(mixed + static_cast<std::uint64_t>(number >> 64));
        }
        return mix(mixed + static_cast<std::uint64_t>(number));
    }

    static std::uint64_t mix(std::uint64_t bits) noexcept {
        bits = (bits ^ (bits >> 31)) * 0x9e3779b97f4a7c15;
        return bits ^ (bits >> 29);
    }
};

#if __cplusplus > 201703L && defined(__cpp_lib_ranges)
// A set goes over its runs, and size() counts its members. So std::ranges::size must not call size().
template <class Type> inline constexpr bool std::ranges::disable_sized_range<range_set::set<Type>> = true;
template <class Walk> inline constexpr bool std::ranges::enable_view<range_set::detail::view<Walk>> = true;
template <class Walk> inline constexpr bool std::ranges::enable_borrowed_range<range_set::detail::view<Walk>> = true;
#endif

#endif
#endif
