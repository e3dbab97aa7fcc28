#!/usr/bin/env python3
"""Times range sets beside Python's own sets and beside a sorted list of ranges in plain Python, in three tables.

    python3 python/bench.py [NUMBER]        NUMBER: how many ranges each set gets, otherwise 100,000

The first table has single calls, in microseconds for each. The second has many values at once, by arrays
and lists. The third has calls beside a list of ranges; there, a ratio below 1 means that range sets are
faster. Each time is the least of several, of processor time. Both sides get the same values, and must give
the same results.
"""

import random
import sys
from array import array
from bisect import bisect_left, bisect_right
from time import process_time

from range_set import RangeSet

TRIALS = 5
MANY = 1_000_000
SPREAD = 10_000  # how many values there are for each range
LONGEST = 2_000


class RangeList:
    """Sorted ranges that never touch: a list of their first values, and one of their last values."""

    def __init__(self):
        self.firsts, self.lasts = [], []

    def add(self, first, last):
        low = bisect_left(self.lasts, first - 1)
        high = bisect_right(self.firsts, last + 1)
        if low < high:
            first, last = min(first, self.firsts[low]), max(last, self.lasts[high - 1])
        self.firsts[low:high], self.lasts[low:high] = [first], [last]

    def __contains__(self, value):
        place = bisect_right(self.firsts, value)
        return place > 0 and value <= self.lasts[place - 1]

    def runs(self):
        return zip(self.firsts, self.lasts)

    def __or__(self, other):
        made = RangeList()
        for first, last in sorted([*self.runs(), *other.runs()]):
            if made.lasts and first <= made.lasts[-1] + 1:
                made.lasts[-1] = max(made.lasts[-1], last)
            else:
                made.firsts.append(first)
                made.lasts.append(last)
        return made

    def __and__(self, other):
        made, mine, theirs = RangeList(), 0, 0
        while mine < len(self.firsts) and theirs < len(other.firsts):
            first = max(self.firsts[mine], other.firsts[theirs])
            last = min(self.lasts[mine], other.lasts[theirs])
            if first <= last:
                made.firsts.append(first)
                made.lasts.append(last)
            if self.lasts[mine] < other.lasts[theirs]:
                mine += 1
            else:
                theirs += 1
        return made


def filled(kind, ranges):
    """Returns a set to which each range is added by a call of its own."""
    made = kind()
    for first, last in ranges:
        made.add(first, last)
    return made


def members(made, values):
    """Returns how many of the values are members."""
    return sum(value in made for value in values)


def plain(result):
    """Returns a result as plain values, to compare both sides."""
    return [tuple(run) for run in result.runs()] if hasattr(result, "runs") else result


def least_time(call):
    """Returns the least time of several calls in milliseconds, and the result of the last one."""
    times = []
    for _ in range(TRIALS):
        start = process_time()
        result = call()
        times.append(process_time() - start)
    return 1000 * min(times), result


def random_ranges(source, number):
    starts = [source.randrange(number * SPREAD) for _ in range(number)]
    return [(start, start + source.randrange(LONGEST)) for start in starts]


def rows(number):
    """Yields the name of each task, and the task for range sets and for lists."""
    source = random.Random(1)
    ranges, others = random_ranges(source, number), random_ranges(source, number)
    values = [source.randrange(number * SPREAD) for _ in range(number)]
    lefts = [filled(kind, ranges) for kind in (RangeSet, RangeList)]
    rights = [filled(kind, others) for kind in (RangeSet, RangeList)]
    pairs = list(zip(lefts, rights))
    yield f"add {number:,} ranges in random order", [lambda it=it: filled(it, ranges) for it in (RangeSet, RangeList)]
    yield f"look up {number:,} random values", [lambda it=it: members(it, values) for it in lefts]
    yield "union of two such sets", [lambda left=left, right=right: left | right for left, right in pairs]
    yield "intersection of two such sets", [lambda left=left, right=right: left & right for left, right in pairs]
    yield "walk over the runs", [lambda it=it: sum(1 for _ in it.runs()) for it in lefts]


def each_in(made, values):
    for value in values:
        value in made


def each_added(made, values):
    for value in values:
        made.add(value)


def walked(values):
    for _ in values:
        pass


def single_calls():
    """Yields the name of a call, and what makes a number of them: on a range set, and on a set or None."""
    source = random.Random(1)
    runs = [(10 * at, 10 * at + 5) for at in range(1000)]
    made, plain = RangeSet(runs), {value for first, last in runs for value in range(first, last + 1)}
    values = [source.randrange(10_000) for _ in range(100_000)]
    members, known = list(made), [source.choice(sorted(plain)) for _ in values]
    yield "v in s", len(values), lambda: each_in(made, values), lambda: each_in(plain, values)
    yield "s.add(v), of a member", len(values), lambda: each_added(made, known), lambda: each_added(plain, known)
    fresh = list(range(0, 200_000, 2))
    yield "s.add(v), of a new value", len(fresh), lambda: each_added(RangeSet(), fresh), lambda: each_added(set(), fresh)
    yield "a step over values", len(members), lambda: walked(made), lambda: walked(plain)
    yield "a step over runs", len(runs), lambda: walked(made.runs()), None
    yield "the loop itself", len(values), lambda: walked(values), None


def many_values():
    """Yields the name of a task on many values, and the task on range sets and on sets, or None."""
    source = random.Random(1)
    values = [source.randrange(2**40) for _ in range(MANY)]
    numbers, ordered = array("q", values), array("q", sorted(values))
    made, plain = RangeSet(numbers), set(values)
    yield "a set of an array", lambda: RangeSet(numbers), lambda: set(numbers)
    yield "a set of an array in order", lambda: RangeSet(ordered), None
    yield "a set of a list", lambda: RangeSet(values), lambda: set(values)
    yield "runs_array()", made.runs_array, None
    yield "to_array()", made.to_array, lambda: sorted(plain)
    yield "contains_array() of an array", lambda: made.contains_array(numbers), lambda: [value in plain for value in values]
    yield "list(s.runs())", lambda: list(made.runs()), None
    yield "s.copy()", made.copy, plain.copy


def main(words):
    number = int(words[0]) if words else 100_000
    print(f"{'':42}{'range set':>12}{'set':>12}")
    for name, calls, ours, theirs in single_calls():
        times = [least_time(call)[0] * 1000 / calls if call else None for call in (ours, theirs)]
        print(f"{name:42}" + "".join(f"{time:>9.3f} us" if time is not None else " " * 12 for time in times))
    print(f"\n{MANY:,} random values:")
    for name, ours, theirs in many_values():
        times = [least_time(call)[0] if call else None for call in (ours, theirs)]
        print(f"{name:42}" + "".join(f"{time:>9.0f} ms" if time is not None else " " * 12 for time in times))
    print(f"\n{'':42}{'range set':>12}{'list':>12}{'ratio':>8}")
    for name, (ours, theirs) in rows(number):
        (our_time, our_result), (their_time, their_result) = least_time(ours), least_time(theirs)
        if plain(our_result) != plain(their_result):
            sys.exit(f"{name}: the results differ")
        print(f"{name:42}{our_time:>9.1f} ms{their_time:>9.1f} ms{our_time / their_time:>8.2f}")


if __name__ == "__main__":
    main(sys.argv[1:])
