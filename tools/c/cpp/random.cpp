// Random calls on sets of every element type, beside a plain model: a bit for each of some values at both
// ends of the type and in its middle, and for each stretch between them.
#include "types.hpp"

#include "check.hpp"

#include <algorithm>
#include <functional>
#include <iterator>
#include <random>
#include <vector>

static std::uint64_t any() {
    static std::mt19937_64 generator(12345);
    return generator();
}

static std::size_t below(std::size_t bound) { return static_cast<std::size_t>(any() % bound); }

// Some places of values in order, without those between them.
static std::vector<uint128> some_places(uint128 last) {
    std::vector<uint128> places;
    for (uint128 i = 0; i < 12 && i <= last; ++i) {
        places.insert(places.end(), {i, last - i, last / 2 + i < last ? last / 2 + i : last});
    }
    std::sort(places.begin(), places.end());
    places.erase(std::unique(places.begin(), places.end()), places.end());
    return places;
}

// The cells of a type: each is one value, or all values of a stretch.
template <class Type> struct cells {
    std::vector<uint128> first, last;

    cells() {
        uint128 next = 0;
        for (const uint128 place : some_places(values_of<Type>::last())) {
            if (next < place) {
                add(next, place - 1);
            }
            add(place, place);
            next = place + 1;
        }
    }

    std::size_t size() const { return first.size(); }
    Type from(std::size_t cell) const { return values_of<Type>::at(first[cell]); }
    Type to(std::size_t cell) const { return values_of<Type>::at(last[cell]); }

private:
    void add(uint128 from, uint128 to) {
        first.push_back(from);
        last.push_back(to);
    }
};

template <class Type> static const cells<Type> &all_cells() {
    static const auto *all = new cells<Type>; // for the whole run
    return *all;
}

using bits = std::vector<bool>;

// The first and last places of the runs of cells that are `wanted`, from a cell up to another.
template <class Type> static std::vector<std::pair<uint128, uint128>> model_runs(const bits &model, bool wanted,
                                                                                 std::size_t from, std::size_t to) {
    std::vector<std::pair<uint128, uint128>> runs;
    const cells<Type> &all = all_cells<Type>();
    for (std::size_t cell = from; cell <= to; ++cell) {
        if (model[cell] != wanted) {
            continue;
        }
        if (cell > from && model[cell - 1] == wanted) {
            runs.back().second = all.last[cell];
        } else {
            runs.emplace_back(all.first[cell], all.last[cell]);
        }
    }
    return runs;
}

template <class Type> static range_set::run<Type> run_at(std::pair<uint128, uint128> places) {
    return {values_of<Type>::at(places.first), values_of<Type>::at(places.second)};
}

template <class Type>
static std::vector<range_set::run<Type>> runs_at(const std::vector<std::pair<uint128, uint128>> &places) {
    std::vector<range_set::run<Type>> runs;
    for (const auto &each : places) {
        runs.push_back(run_at<Type>(each));
    }
    return runs;
}

template <class Type> static bool same(const Type &left, const Type &right) {
    return range_set::run<Type>(left) == range_set::run<Type>(right);
}

// What a view gives in both directions, compared with what it should give.
template <class View, class Run> static void check_view(const View &view, const std::vector<Run> &wanted) {
    const std::vector<Run> there(view.begin(), view.end()), back(view.rbegin(), view.rend());
    CHECK(there == wanted && std::equal(back.begin(), back.end(), wanted.rbegin(), wanted.rend()));
    auto at = view.end();
    for (auto run = wanted.rbegin(); run != wanted.rend(); ++run) {
        CHECK(*--at == *run);
    }
    CHECK(at == view.begin() && view.empty() == wanted.empty());
}

template <class Type> static void check_views(const range_set::set<Type> &set, const bits &model) {
    const std::size_t last = model.size() - 1;
    const auto runs = runs_at<Type>(model_runs<Type>(model, true, 0, last));
    const auto gaps = runs_at<Type>(model_runs<Type>(model, false, 0, last));
    check_view(set, runs);
    check_view(set.runs(), runs);
    check_view(set.gaps(), gaps);
    CHECK(set.runs().size() == runs.size() && set.run_count() == runs.size() && set.gaps().size() == gaps.size());
    const std::size_t from = below(model.size()), to = below(model.size());
    std::vector<range_set::run<Type>> inside;
    if (from <= to) {
        inside = runs_at<Type>(model_runs<Type>(model, true, from, to));
    }
    const range_set::run<Type> window(all_cells<Type>().from(from), all_cells<Type>().to(to));
    if (from <= to) {
        check_view(set.runs_in(window), inside);
        std::vector<range_set::run<Type>> stored(inside.size() + 1);
        CHECK(set.runs_in(window, stored.data(), stored.size()) == inside.size());
        CHECK(std::equal(inside.begin(), inside.end(), stored.begin()));
        CHECK(set.runs_in(window, stored.data(), 1) == std::min<std::size_t>(inside.size(), 1));
    }
}

// The number of members below a cell, modulo 2^128.
template <class Type> static uint128 members_below(const bits &model, std::size_t cell) {
    uint128 members = 0;
    for (std::size_t i = 0; i < cell; ++i) {
        members += model[i] ? all_cells<Type>().last[i] - all_cells<Type>().first[i] + 1 : 0;
    }
    return members;
}

static uint128 as_number(const range_set::count &count) { return uint128{count.high} << 64 | count.low; }

template <class Type> static void check_counts(const range_set::set<Type> &set, const bits &model) {
    const bool is_all = std::find(model.begin(), model.end(), false) == model.end();
    const uint128 members = members_below<Type>(model, model.size());
    const range_set::count len = set.len();
    CHECK(as_number(len) == members && len.top == (is_all && values_of<Type>::last() == ~uint128{0} ? 1 : 0));
    CHECK(len.high != 0 || len.top != 0 || set.size() == len.low);
    const std::size_t cell = below(model.size());
    const Type value = all_cells<Type>().from(cell);
    const uint128 rank = members_below<Type>(model, cell);
    CHECK(set.rank(value) == rank);
    using rank_type = typename range_set::set<Type>::rank_type;
    if (model[cell]) {
        const auto found = set.nth(static_cast<rank_type>(rank));
        CHECK(found && same(*found, value));
    }
    CHECK(is_all || members > static_cast<rank_type>(-1) || !set.nth(static_cast<rank_type>(members)));
}

template <class Type> static bool is_run(const std::optional<range_set::run<Type>> &found,
                                         const std::vector<range_set::run<Type>> &runs, std::size_t index) {
    return index < runs.size() ? found && *found == runs[index] : !found;
}

template <class Type> static void check_searches(const range_set::set<Type> &set, const bits &model) {
    const std::size_t cell = below(model.size()), last = model.size() - 1;
    const Type value = all_cells<Type>().from(cell);
    CHECK(set.contains(value) == model[cell] && set.count(value) == (model[cell] ? 1u : 0u));
    CHECK(set.intersects(value) == model[cell] && set.is_disjoint(value) != model[cell]);
    for (const bool wanted : {true, false}) {
        const auto places = model_runs<Type>(model, wanted, 0, last);
        const auto runs = runs_at<Type>(places);
        std::size_t before = 0, through = 0;
        const uint128 place = all_cells<Type>().first[cell];
        for (const auto &each : places) {
            before += each.second < place ? 1 : 0;
            through += each.first <= place ? 1 : 0;
        }
        CHECK(is_run(wanted ? set.next_run(value) : set.next_gap(value), runs, before));
        CHECK(is_run(wanted ? set.run_after(value) : set.gap_after(value), runs, through));
        CHECK(is_run(wanted ? set.prev_run(value) : set.prev_gap(value), runs, through - 1));
        CHECK(is_run(wanted ? set.run_before(value) : set.gap_before(value), runs, before - 1));
        if (model[cell] == wanted) {
            CHECK((set.run_or_gap(value) == std::pair<range_set::run<Type>, bool>(runs[before], wanted)));
        }
        if (wanted) {
            CHECK(set.find(value) == (model[cell] ? std::next(set.begin(), static_cast<long>(before)) : set.end()));
            CHECK(set.lower_bound(value) == std::next(set.begin(), static_cast<long>(before)));
            CHECK(set.upper_bound(value) == std::next(set.begin(), static_cast<long>(through)));
        }
    }
    const auto first = std::find(model.begin(), model.end(), true);
    CHECK(set.empty() == (first == model.end()) && set.first().has_value() != set.empty() &&
          set.last().has_value() != set.empty());
    if (!set.empty()) {
        const auto lowest = static_cast<std::size_t>(first - model.begin());
        CHECK(same(set.front(), all_cells<Type>().from(lowest)) && same(*set.first(), set.front()));
        CHECK(set.first_run()->contains(set.front()) && set.last_run()->contains(set.back()) &&
              same(*set.last(), set.back()));
    }
}

// The first gap with some number of values at or after a cell, and the first run with some number of members.
template <class Type> static void check_first_of_a_length(const range_set::set<Type> &set, const bits &model) {
    const std::size_t from = below(model.size());
    using rank_type = typename range_set::set<Type>::rank_type;
    const rank_type len = below(3) == 0 ? static_cast<rank_type>(any()) : static_cast<rank_type>(below(6) + 1);
    for (const bool member : {false, true}) {
        std::optional<range_set::run<Type>> wanted;
        for (const auto &block : model_runs<Type>(model, member, from, model.size() - 1)) {
            if (!wanted && block.second - block.first >= uint128{len} - 1) {
                wanted = run_at<Type>(block);
            }
        }
        const Type value = all_cells<Type>().from(from);
        CHECK((member ? set.first_run_of(value, len) : set.first_gap(value, len)) == wanted);
    }
}

// The members in both directions, where there are few, and else those at the ends.
template <class Type> static void check_members(const range_set::set<Type> &set, const bits &model) {
    std::vector<uint128> wanted;
    for (const auto &run : model_runs<Type>(model, true, 0, model.size() - 1)) {
        for (uint128 more = 0; more <= run.second - run.first && wanted.size() < 60; ++more) {
            wanted.push_back(run.first + more);
        }
    }
    auto at = set.members().begin();
    for (const uint128 place : wanted) {
        CHECK(same(*at, values_of<Type>::at(place)));
        ++at;
    }
    if (wanted.size() < 60) {
        CHECK(at == set.values().end() && set.members().size() == wanted.size());
        for (auto place = wanted.rbegin(); place != wanted.rend(); ++place) {
            CHECK(same(*--at, values_of<Type>::at(*place)));
        }
    }
}

template <class Type> static void check_text(const range_set::set<Type> &set) {
    using Set = range_set::set<Type>;
    if constexpr (range_set::detail::is_read<Type>) {
        std::ostringstream out;
        out << set << '\n' << set << '\n';
        std::istringstream in(out.str());
        Set first, second;
        in >> first >> second;
        CHECK(in && first == set && second == set && Set::parse(set.to_text()) == set && text(set) == set.to_text());
    }
}

template <class Type> static void check(const range_set::set<Type> &set, const bits &model) {
    check_views(set, model);
    check_counts(set, model);
    check_searches(set, model);
    check_first_of_a_length(set, model);
    check_members(set, model);
    check_text(set);
}

// A set with random cells, and its model.
template <class Type> static std::pair<range_set::set<Type>, bits> random_set() {
    const cells<Type> &all = all_cells<Type>();
    bits model(all.size());
    std::vector<range_set::run<Type>> runs;
    for (std::size_t left = below(8); left > 0; --left) {
        const std::size_t from = below(all.size()), to = std::min(all.size() - 1, from + below(6));
        runs.emplace_back(all.from(from), all.to(to));
        std::fill(model.begin() + static_cast<long>(from), model.begin() + static_cast<long>(to) + 1, true);
    }
    auto set = below(2) == 0 ? range_set::set<Type>(runs) : range_set::set<Type>::from_runs(runs.data(), runs.size());
    return {std::move(set), model};
}

template <class Call> static bits combined(const bits &left, const bits &right, Call call) {
    bits made(left.size());
    for (std::size_t i = 0; i < left.size(); ++i) {
        made[i] = call(left[i], right[i]);
    }
    return made;
}

// Some cells of a type that follow each other.
template <class Type> struct window {
    std::size_t from = below(all_cells<Type>().size());
    std::size_t to = std::min(all_cells<Type>().size() - 1, from + below(6));

    Type first() const { return all_cells<Type>().from(from); }
    Type last() const { return all_cells<Type>().to(to); }
    bits changed(bits model, bool member) const {
        std::fill_n(model.begin() + static_cast<long>(from), to + 1 - from, member);
        return model;
    }
};

// Changes a set in place, and its model. What the call returns must be whether the set changed.
template <class Type> static void change(range_set::set<Type> &set, bits &model) {
    const auto [other, with] = random_set<Type>();
    const window<Type> some;
    const bits old = model;
    bool changes = false;
    switch (below(4)) {
        case 0:
            changes = set.insert(some.first(), some.last());
            model = some.changed(model, true);
            break;
        case 1:
            changes = set.erase(range_set::run<Type>(some.first(), some.last()));
            model = some.changed(model, false);
            break;
        case 2:
            changes = set.insert(other);
            model = combined(model, with, std::logical_or<>());
            break;
        default:
            changes = set.remove(other);
            model = combined(model, with, [](bool a, bool b) { return a && !b; });
    }
    CHECK(changes == (model != old));
}

// Combines any number of sets.
template <class Type>
static void combine_many(range_set::set<Type> &set, bits &model, const range_set::set<Type> &other, const bits &with) {
    using Set = range_set::set<Type>;
    switch (below(5)) {
        case 0:
            set = Set::union_of({set, other, set});
            model = combined(model, with, std::logical_or<>());
            break;
        case 1:
            set = Set::intersection_of({set, other, set});
            model = combined(model, with, std::logical_and<>());
            break;
        case 2:
            set = Set::symmetric_difference_of({set, other});
            model = combined(model, with, std::not_equal_to<>());
            break;
        case 3:
            set = Set::at_least(2, {set, other});
            model = combined(model, with, std::logical_and<>());
            break;
        default:
            set = below(2) == 0 ? Set::at_least(0, {set}) : Set::intersection_of({});
            model.assign(model.size(), true);
    }
}

// Combines a set with another one, as an operator or as its like in place.
template <class Type> static void combine(range_set::set<Type> &set, bits &model) {
    const auto [other, with] = random_set<Type>();
    const bool in_place = below(2) == 0;
    switch (below(6)) {
        case 0:
            set = ~set;
            model.flip();
            break;
        case 1:
            set = in_place ? std::move(set &= other) : set & other;
            model = combined(model, with, std::logical_and<>());
            break;
        case 2:
            set = in_place ? std::move(set ^= other) : set ^ other;
            model = combined(model, with, std::not_equal_to<>());
            break;
        case 3:
            set = in_place ? std::move(set -= other) : set - other;
            model = combined(model, with, [](bool a, bool b) { return a && !b; });
            break;
        case 4:
            set = in_place ? std::move(set |= other) : set | other;
            model = combined(model, with, std::logical_or<>());
            break;
        default:
            combine_many(set, model, other, with);
    }
}

// Compares two sets, and a set with some cells.
template <class Type> static void check_relations(const range_set::set<Type> &set, const bits &model) {
    const auto [other, with] = random_set<Type>();
    const window<Type> some;
    CHECK(set.is_disjoint(other) == (combined(model, with, std::logical_and<>()) == bits(model.size())));
    CHECK(set.intersects(other) != set.is_disjoint(other) && set.contains(other) == other.is_subset(set));
    CHECK(set.is_subset(other) == (combined(model, with, std::logical_or<>()) == with));
    CHECK((set < other) == (set.order(other) < 0) && (set == other) == (model == with));
    CHECK((set | other).clone() == (other | set) &&
          std::hash<range_set::set<Type>>()(set | other) == std::hash<range_set::set<Type>>()(other | set));
    CHECK(set.contains(some.first(), some.last()) == (some.changed(model, true) == model));
    CHECK(set.is_disjoint(some.first(), some.last()) == (some.changed(model, false) == model));
    CHECK(set.intersects(some.first(), some.last()) != set.is_disjoint(some.first(), some.last()));
}

template <class Type> static void compare() {
    range_set::set<Type> set;
    bits model(all_cells<Type>().size());
    for (int i = 0; i < 400; ++i) {
        if (below(2) == 0) {
            change(set, model);
        } else {
            combine(set, model);
        }
        check(set, model);
        check_relations(set, model);
    }
}

int main() {
    const auto run = [](auto of) { compare<typename decltype(of)::type>(); };
    number_types::each(run);
    other_types::each(run);
    std::printf("sets of every element type answer as a plain model does\n");
    return 0;
}
