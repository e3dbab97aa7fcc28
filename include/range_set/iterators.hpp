// Iterators over the runs, the gaps and the members of a set. range_set.hpp includes this file, and
// says what holds for all of them.
#ifndef RANGE_SET_ITERATORS_HPP
#define RANGE_SET_ITERATORS_HPP

#include "values.hpp"

#include <cstddef>
#include <iterator>

namespace range_set::detail {

// What all walks know: the calls for the numbers of a type, and how a run of numbers becomes one of values.
template <class Type> struct walk_base {
    using c = calls<number_of<Type>>;
    using handle = typename c::handle;
    using number = number_of<Type>;

    static typename c::value least() noexcept { return c::to_c(0); }
    static typename c::value greatest() noexcept { return c::to_c(ranked<Type>::greatest()); }
    static Type value_of(typename c::value stored) noexcept(is_whole<Type>) {
        return ranked<Type>::value(c::from_c(stored));
    }
    static run<Type> run_of(const typename c::run &stored) noexcept(is_whole<Type>) {
        return {value_of(stored.first), value_of(stored.last)};
    }

    static bool same_number(typename c::value left, typename c::value right) noexcept {
        return c::from_c(left) == c::from_c(right);
    }

    // Removes what is above the greatest value from a gap, and returns whether anything is left.
    static bool clip(typename c::run &gap) noexcept {
        if (c::from_c(gap.last) > ranked<Type>::greatest()) {
            gap.last = greatest();
        }
        return c::from_c(gap.first) <= ranked<Type>::greatest();
    }
};

// A walk goes over the places of a set in ascending order. Each of its functions stores a place in `at`
// and returns true, or returns false if there is no such place. None of them goes past the greatest value.
template <class Type> struct run_walk : walk_base<Type> {
    using base = walk_base<Type>;
    using typename base::c;
    using typename base::handle;
    using place = typename c::run;
    using value_type = run<Type>;
    using size_type = std::size_t;

    bool first(const handle &set, place &at) const noexcept { return c::next_run(&set, base::least(), &at); }
    bool last(const handle &set, place &at) const noexcept { return c::prev_run(&set, base::greatest(), &at); }
    bool after(const handle &set, place &at) const noexcept { return c::run_after(&set, at.last, &at); }
    bool before(const handle &set, place &at) const noexcept { return c::run_before(&set, at.first, &at); }
    size_type size(const handle &set) const noexcept { return c::run_count(&set); }
    static value_type value(const place &at) noexcept(is_whole<Type>) { return base::run_of(at); }
    static bool same(const place &left, const place &right) noexcept {
        return base::same_number(left.first, right.first) && base::same_number(left.last, right.last);
    }
};

template <class Type> struct gap_walk : run_walk<Type> {
    using base = walk_base<Type>;
    using typename base::c;
    using typename base::handle;
    using place = typename c::run;
    using size_type = std::size_t;

    bool first(const handle &set, place &at) const noexcept {
        return c::next_gap(&set, base::least(), &at) && base::clip(at);
    }

    bool last(const handle &set, place &at) const noexcept {
        return c::prev_gap(&set, base::greatest(), &at) && base::clip(at);
    }

    bool after(const handle &set, place &at) const noexcept {
        return c::gap_after(&set, at.last, &at) && base::clip(at);
    }
    bool before(const handle &set, place &at) const noexcept { return c::gap_before(&set, at.first, &at); }

    // There is a gap after each run, and one before the first run, unless a run is at an end.
    size_type size(const handle &set) const noexcept {
        return c::run_count(&set) + 1 - (c::contains(&set, base::least()) ? 1 : 0) -
               (c::contains(&set, base::greatest()) ? 1 : 0);
    }
};

template <class Type> struct member_walk : walk_base<Type> {
    using base = walk_base<Type>;
    using typename base::c;
    using typename base::handle;
    using typename base::number;
    using value_type = Type;
    using size_type = std::uint64_t;

    // A member, and the run that contains it.
    struct place {
        typename c::run within;
        number member;
    };

    bool first(const handle &set, place &at) const noexcept {
        return lowest(c::next_run(&set, base::least(), &at.within), at);
    }

    bool last(const handle &set, place &at) const noexcept {
        return highest(c::prev_run(&set, base::greatest(), &at.within), at);
    }

    bool after(const handle &set, place &at) const noexcept {
        if (at.member == c::from_c(at.within.last)) {
            return lowest(c::run_after(&set, at.within.last, &at.within), at);
        }
        ++at.member;
        return true;
    }

    bool before(const handle &set, place &at) const noexcept {
        if (at.member == c::from_c(at.within.first)) {
            return highest(c::run_before(&set, at.within.first, &at.within), at);
        }
        --at.member;
        return true;
    }

    size_type size(const handle &set) const { return count(c::len(&set)).value(); }
    static value_type value(const place &at) noexcept(is_whole<Type>) { return ranked<Type>::value(at.member); }
    static bool same(const place &left, const place &right) noexcept { return left.member == right.member; }

private:
    static bool lowest(bool found, place &at) noexcept {
        at.member = c::from_c(at.within.first);
        return found;
    }

    static bool highest(bool found, place &at) noexcept {
        at.member = c::from_c(at.within.last);
        return found;
    }
};

// The runs of the members in a window, cut to it.
template <class Type> struct window_walk : run_walk<Type> {
    using base = walk_base<Type>;
    using typename base::c;
    using typename base::handle;
    using place = typename c::run;
    using size_type = void;

    window_walk() noexcept = default;
    explicit window_walk(const place &window) noexcept : window_(window) {}

    bool first(const handle &set, place &at) const noexcept {
        return !is_below(window_.last, window_.first) && c::next_run(&set, window_.first, &at) && cut(at);
    }

    bool last(const handle &set, place &at) const noexcept {
        return !is_below(window_.last, window_.first) && c::prev_run(&set, window_.last, &at) && cut(at);
    }

    bool after(const handle &set, place &at) const noexcept { return c::run_after(&set, at.last, &at) && cut(at); }
    bool before(const handle &set, place &at) const noexcept { return c::run_before(&set, at.first, &at) && cut(at); }

private:
    static bool is_below(typename c::value left, typename c::value right) noexcept {
        return c::from_c(left) < c::from_c(right);
    }

    bool cut(place &at) const noexcept {
        at.first = is_below(at.first, window_.first) ? window_.first : at.first;
        at.last = is_below(window_.last, at.last) ? window_.last : at.last;
        return !is_below(at.last, at.first);
    }

    place window_{};
};

// The same places in descending order.
template <class Walk> struct reversed : Walk {
    using handle = typename Walk::handle;
    using place = typename Walk::place;

    reversed() noexcept = default;
    explicit reversed(const Walk &walk) noexcept : Walk(walk) {}

    bool first(const handle &set, place &at) const noexcept { return Walk::last(set, at); }
    bool last(const handle &set, place &at) const noexcept { return Walk::first(set, at); }
    bool after(const handle &set, place &at) const noexcept { return Walk::before(set, at); }
    bool before(const handle &set, place &at) const noexcept { return Walk::after(set, at); }
};

// What `iterator->first` reads: a copy, which lives as long as the expression.
template <class Value> struct arrow {
    Value held;
    const Value *operator->() const noexcept { return &held; }
};

// A place of a walk, or the end after its last place.
template <class Walk> class iterator : Walk {
    using handle = typename Walk::handle;
    using place = typename Walk::place;

public:
    using iterator_category = std::bidirectional_iterator_tag;
    using value_type = typename Walk::value_type;
    using difference_type = std::ptrdiff_t;
    using reference = value_type;
    using pointer = arrow<value_type>;

    iterator() noexcept = default;

    reference operator*() const noexcept(noexcept(Walk::value(place()))) { return Walk::value(at_); }
    pointer operator->() const noexcept(noexcept(Walk::value(place()))) { return {**this}; }

    iterator &operator++() noexcept {
        inside_ = Walk::after(*set_, at_);
        return *this;
    }

    iterator &operator--() noexcept {
        inside_ = inside_ ? Walk::before(*set_, at_) : Walk::last(*set_, at_);
        return *this;
    }

    iterator operator++(int) noexcept {
        iterator old = *this;
        ++*this;
        return old;
    }

    iterator operator--(int) noexcept {
        iterator old = *this;
        --*this;
        return old;
    }

    friend bool operator==(const iterator &left, const iterator &right) noexcept {
        return left.inside_ == right.inside_ && (!left.inside_ || Walk::same(left.at_, right.at_));
    }

    friend bool operator!=(const iterator &left, const iterator &right) noexcept { return !(left == right); }

private:
    template <class> friend class view;
    template <class> friend class range_set::set;

    iterator(const Walk &walk, const handle &set) noexcept : Walk(walk), set_(&set) {}

    static iterator begin(const Walk &walk, const handle &set) noexcept {
        iterator made(walk, set);
        made.inside_ = made.Walk::first(set, made.at_);
        return made;
    }

    const handle *set_ = nullptr;
    place at_{};
    bool inside_ = false;
};

// What a walk goes over. It refers to the set, and copies nothing.
template <class Walk> class view : Walk {
public:
    using value_type = typename Walk::value_type;
    using iterator = detail::iterator<Walk>;
    using const_iterator = iterator;
    using reverse_iterator = detail::iterator<reversed<Walk>>;
    using const_reverse_iterator = reverse_iterator;

    explicit view(const typename Walk::handle &set, const Walk &walk = Walk()) noexcept : Walk(walk), set_(&set) {}

    iterator begin() const noexcept { return iterator::begin(*this, *set_); }
    iterator end() const noexcept { return iterator(*this, *set_); }
    reverse_iterator rbegin() const noexcept { return reverse_iterator::begin(reversed<Walk>(*this), *set_); }
    reverse_iterator rend() const noexcept { return reverse_iterator(reversed<Walk>(*this), *set_); }
    bool empty() const noexcept { return begin() == end(); }

    // The number of runs, gaps or members. Throws std::overflow_error if there are 2^64 members or more.
    // The view of a window has no size.
    template <class Of = Walk, class Size = typename Of::size_type, class = std::enable_if_t<!std::is_void_v<Size>>>
    Size size() const noexcept(noexcept(std::declval<const Of &>().size(std::declval<const typename Of::handle &>()))) {
        return Of::size(*set_);
    }

private:
    const typename Walk::handle *set_;
};

} // namespace range_set::detail

#endif
