"""Random calls on sets of each type of values, at both ends and between, beside Python's sets of the same values."""

import random
import unittest

from kinds import INTS, KINDS
from range_set import RangeSet, Run

SIZE = 24
CALLS = 300


def windows():
    """Yields each type of sets, and the least number of a small part of its values."""
    for kind in KINDS:
        for least in (kind.least, (kind.least + kind.greatest) // 2 - 7, kind.greatest - SIZE + 1):
            yield kind, least
    for kind in INTS:
        for least in (2**31 - 7, 2**63 - 7, 2**64 - 7, -7, -(2**31) - 7, -(2**63) - 7):
            if kind.least <= least and least + SIZE <= kind.greatest:
                yield kind, least


class Trial:
    """A set, Python's set of the numbers of its values, and a source of random values."""

    def __init__(self, test, kind, least):
        self.test, self.kind, self.least, self.value_of = test, kind, least, kind.value
        self.random = random.Random(f"{kind.name} {least}")
        self.made, self.model = kind.made(), set()

    def number(self):
        return self.least + self.random.randrange(SIZE)

    def ends(self):
        """Returns two ends, in order except at times."""
        first, last = self.number(), self.number()
        return (first, last) if self.random.random() < 0.1 else (min(first, last), max(first, last))

    def values(self, numbers):
        return [self.value_of(number) for number in numbers]

    def numbers(self, made):
        """Returns the numbers of some values."""
        return {self.kind.number(value) for value in made}

    def run(self, first, last):
        return Run(self.value_of(first), self.value_of(last))

    def runs(self, spans):
        return [self.run(*span) for span in spans]

    def other(self):
        """Returns a second set in one of the forms that operators take, and the numbers of its members."""
        members = {self.number() for _ in range(self.random.randrange(10))}
        form = self.random.choice(["changing", "frozen", "same", "set", "list", "runs", "pairs", "pair"])
        if form == "same":
            return self.made, set(self.model)
        if form == "pair":
            first, last = self.ends()
            return tuple(self.values((first, last))), set(range(first, last + 1))
        spans = spans_of(sorted(members))
        forms = {"changing": self.kind.made, "set": lambda it: set(self.values(it)), "list": self.values}
        forms["frozen"] = lambda it: self.kind.made(it, self.kind.frozen)
        forms["runs"] = lambda _: self.random.sample(self.runs(spans), len(spans))
        forms["pairs"] = lambda _: [tuple(self.values(span)) for span in spans]
        return forms[form](members), members

    def go(self):
        names = [name for name in dir(self) if name.startswith("try_")]
        for _ in range(CALLS):
            getattr(self, self.random.choice(names))()
            self.compare()

    def same(self, left, right):
        self.test.assertEqual(left, right)

    def compare(self):
        """Checks all members, each look-up at one value, and the runs."""
        made, model, ordered = self.made, self.model, sorted(self.model)
        self.same(list(made), self.values(ordered))
        self.same(list(reversed(made)), self.values(ordered[::-1]))
        self.same((len(made), bool(made), made.count()), (len(model), bool(model), len(model)))
        runs = self.runs(spans_of(ordered))
        self.same((list(made.runs()), list(reversed(made.runs())), len(made.runs())), (runs, runs[::-1], len(runs)))
        self.same(made, type(made).parse(str(made), **self.kind.options))
        number = self.number()
        self.same(self.value_of(number) in made, number in model)
        self.same(made.rank(self.value_of(number)), sum(member < number for member in model))
        self.same(made == set(self.values(model)), True)

    def try_add(self):
        first, last = self.ends()
        new = set(range(first, last + 1)) - self.model
        form = self.random.choice([lambda *it: it, lambda *it: [tuple(it)], lambda *it: [Run(*it)]])
        self.same(self.made.add(*form(*self.values((first, last)))), bool(new))
        self.model |= new

    def try_discard(self):
        first, last = self.ends()
        gone = set(range(first, last + 1)) & self.model
        self.same(self.made.discard(self.run(first, last)), bool(gone))
        self.model -= gone

    def try_remove(self):
        number = self.number()
        if number in self.model:
            self.made.remove(self.value_of(number))
            self.model.remove(number)
        else:
            self.test.assertRaises(KeyError, self.made.remove, self.value_of(number))

    def try_pop(self):
        if self.model and self.random.random() < 0.3:
            self.same(self.kind.number(self.made.pop()), min(self.model))
            self.model.remove(min(self.model))

    def try_operator(self):
        name = self.random.choice(["__or__", "__and__", "__sub__", "__xor__", "__ior__", "__iand__", "__isub__", "__ixor__"])
        other, members = self.other()
        self.made, self.model = getattr(self.made, name)(other), getattr(self.model, name)(members)

    def try_operator_from_the_right(self):
        other, members = self.other()
        if isinstance(other, (set, list, tuple)):
            for made, model in ((other | self.made, members | self.model), (other & self.made, members & self.model),
                                (other - self.made, members - self.model), (other ^ self.made, members ^ self.model)):
                self.same((self.numbers(made), type(made)), (model, type(self.made)))

    def try_method(self):
        name = self.random.choice(["union", "intersection", "difference", "symmetric_difference"])
        (other, members), more = self.other(), [self.number(), self.number()]
        made = getattr(self.made, name)(other)
        self.same(self.numbers(made), getattr(self.model, name)(members))
        self.same(self.numbers(getattr(made, name)(iter(self.values(more)))), getattr(self.numbers(made), name)(more))

    def try_many(self):
        others = [self.other() for _ in range(2 + self.random.randrange(3))]
        sets, models = [made for made, _ in others], [members for _, members in others]
        self.same(self.numbers(self.made.union(*sets)), self.model.union(*models))
        self.same(self.numbers(self.made.intersection(*sets)), self.model.intersection(*models))
        depth = {number: sum(number in members for members in models) for number in set().union(*models)}
        odd = {number for number, deep in depth.items() if deep % 2}
        self.same(self.numbers(self.made.symmetric_difference(*sets)), self.model ^ odd)
        for k in range(1, len(sets) + 2):
            wanted = {number for number, deep in depth.items() if deep >= k}
            self.same(self.numbers(type(self.made).at_least(k, sets, **self.kind.options)), wanted)

    def try_update(self):
        name = self.random.choice(["", "intersection_", "difference_", "symmetric_difference_"]) + "update"
        other, members = self.other()
        getattr(self.made, name)(other)
        getattr(self.model, name)(members)

    def try_comparison(self):
        other, members = self.other()
        for name in ("__eq__", "__ne__", "__le__", "__lt__", "__ge__", "__gt__", "isdisjoint", "issubset", "issuperset"):
            self.same(getattr(self.made, name)(other), getattr(self.model, name)(members))
        for name, wanted in (("__eq__", members == self.model), ("__le__", members <= self.model), ("__gt__", members > self.model)):
            self.same({"__eq__": other == self.made, "__le__": other <= self.made, "__gt__": other > self.made}[name], wanted)
        mine, theirs = sorted(self.model), sorted(members)
        self.same(self.made.compare(self.kind.made(members)), (mine > theirs) - (mine < theirs))

    def try_complement(self):
        made, universe = ~self.made, range(self.least, self.least + SIZE)
        self.same([it for it in universe if self.value_of(it) in made], [it for it in universe if it not in self.model])
        self.same(made.count(), self.kind.greatest - self.kind.least + 1 - len(self.model))
        for left, right in ((made, self.made), (self.made, made)):
            self.same((list(left.runs()), len(left.runs())), (list(right.gaps()), len(right.gaps())))
            self.same(list(reversed(left.runs())), list(reversed(right.gaps())))
        self.same(~made, self.made)

    def try_ranges(self):
        first, last = self.ends()
        numbers, run = set(range(first, last + 1)), self.run(first, last)
        self.same((run in self.made, tuple(run) in self.made), (numbers <= self.model,) * 2)
        self.same(self.made.count(*run), len(numbers & self.model))
        self.same(self.made.isdisjoint(run), self.model.isdisjoint(numbers))
        if first <= last:
            part = spans_of(sorted(numbers & self.model))
            self.same(list(self.made.runs_in(*run)), self.runs(part))

    def try_places(self):
        start, stop = self.random.randrange(-SIZE, SIZE), self.random.randrange(-SIZE, SIZE)
        ordered = sorted(self.model)
        self.same(list(self.made[start:stop]), self.values(ordered[start:stop]))
        if -len(ordered) <= start < len(ordered):
            self.same(self.made[start], self.value_of(ordered[start]))
        else:
            self.test.assertRaises(IndexError, self.made.__getitem__, start)

    def try_neighbors(self):
        number, top, low = self.number(), self.kind.greatest, self.kind.least
        runs = spans_of(sorted(self.model))
        edges = [low - 1, *(end for run in runs for end in run), top + 1]
        gaps = [(edges[at] + 1, edges[at + 1] - 1) for at in range(0, len(edges), 2) if edges[at] + 1 < edges[at + 1]]
        for name, spans in (("run", runs), ("gap", gaps)):
            found = [it for it in spans if it[0] <= number <= it[1]]
            after = [it for it in spans if it[0] > number]
            before = [it for it in spans if it[1] < number][::-1]
            wanted = {"of": found, "after": after, "before": before}
            for word, each in wanted.items():
                self.same(getattr(self.made, f"{name}_{word}")(self.value_of(number)), self.first_of(each))
            self.same(getattr(self.made, f"next_{name}")(self.value_of(number)), self.first_of(found + after))
            self.same(getattr(self.made, f"prev_{name}")(self.value_of(number)), self.first_of(found + before))
            self.same(getattr(self.made, f"next_{name}")(), self.first_of(spans))
            self.same(getattr(self.made, f"prev_{name}")(), self.first_of(spans[::-1]))
        self.same((self.made.first_run(), self.made.last_run()), (self.first_of(runs), self.first_of(runs[::-1])))
        length = self.random.randrange(1, SIZE)
        for call, spans in ((self.made.first_gap, gaps), (self.made.first_run_of, runs)):
            parts = [(max(first, number), last) for first, last in spans if last >= number]
            wanted = [it for it in parts if it[1] - it[0] + 1 >= length]
            self.same(call(length, self.value_of(number)), self.first_of(wanted))

    def first_of(self, spans):
        return self.run(*spans[0]) if spans else None


def spans_of(ordered):
    """Returns the runs of an ascending list of ints as pairs."""
    spans = []
    for number in ordered:
        if spans and spans[-1][1] == number - 1:
            spans[-1] = spans[-1][0], number
        else:
            spans.append((number, number))
    return spans


class RandomCalls(unittest.TestCase):
    def test_against_sets_of_ints(self):
        for kind, least in windows():
            with self.subTest(kind=kind.name, least=least):
                Trial(self, kind, least).go()

    def test_sets_of_other_ints(self):
        """Comparisons of sets whose ints have other widths or signs."""
        source = random.Random(1)
        for left in INTS:
            for right in INTS:
                for least in {0, left.greatest - 9, right.greatest - 9, left.least, right.least, -5}:
                    one, two = ({least + source.randrange(10) for _ in range(5)} for _ in range(2))
                    one = {it for it in one if left.least <= it <= left.greatest}
                    two = {it for it in source.choice([one, two]) if right.least <= it <= right.greatest}
                    mine, theirs = left.made(one), right.made(two)
                    for name in ("__eq__", "__le__", "__lt__", "__ge__", "__gt__", "isdisjoint", "issubset", "issuperset"):
                        self.assertEqual(getattr(mine, name)(theirs), getattr(one, name)(two), (left.name, right.name, name))
                    order = (sorted(one) > sorted(two)) - (sorted(one) < sorted(two))
                    self.assertEqual(mine.compare(theirs), order)
                    wide = RangeSet(mine, bits=128, signed=left.least < 0)
                    self.assertEqual((wide == mine, wide, RangeSet(mine)), (True, one, one))


if __name__ == "__main__":
    unittest.main()
