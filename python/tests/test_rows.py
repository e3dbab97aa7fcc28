"""Each call on small sets, with results worked out by hand."""

import copy
import functools
import json
import pickle
import random
import unittest
from collections import abc

from range_set import FrozenRangeSet, RangeSet, Run

GREATEST = {32: 2**32 - 1, 64: 2**64 - 1, 128: 2**128 - 1}
KINDS = RangeSet, FrozenRangeSet
EACH = [(kind, bits) for kind in KINDS for bits in GREATEST]


class Members(unittest.TestCase):
    def test_values_ranges_and_runs(self):
        for kind, bits in EACH:
            made = kind([5, range(10, 21), Run(30, 39), True], bits=bits, signed=False)
            self.assertEqual(str(made), "1..=1, 5..=5, 10..=20, 30..=39")
            self.assertEqual(made.bits, bits)

    def test_sources(self):
        for kind, bits in EACH:
            for source in (range(1, 6), Run(1, 5), [Run(4, 5), range(1, 4)], {1, 2, 3, 4, 5}, iter([5, 4, 3, 2, 1])):
                self.assertEqual(str(kind(source, bits=bits, signed=False)), "1..=5")
            self.assertEqual(list(kind(range(1, 10, 3), bits=bits, signed=False)), [1, 4, 7])
            self.assertEqual(list(kind(range(3, 0, -1), bits=bits, signed=False)), [1, 2, 3])
            for source in ((), range(0), range(5, 1), Run(5, 1), [range(0)], [Run(1, 0)], [range(-5, -5)]):
                self.assertFalse(kind(source, bits=bits, signed=False))

    def test_over_a_million_runs(self):
        count = 1_000_003
        values = [3 * (7919 * at % count) for at in range(count)]
        for bits in GREATEST:
            made = RangeSet(values, bits=bits, signed=False)
            self.assertEqual((len(made), len(made.runs()), made.last()), (count, count, 3 * count - 3))
            made.remove(3 * 500_000)
            self.assertTrue(made.add(3 * 500_000) and made.discard(0) and made.add(0, 1) and made.discard(range(1, 3)))
            self.assertFalse(made - made or made ^ made)
            self.assertEqual((made == RangeSet(values, bits=bits, signed=False), len((~made).runs())), (True, count))
            made.difference_update(values[:1000])
            made &= RangeSet(range(3 * count), bits=bits, signed=False)
            self.assertEqual(len(made), count - 1000)

    def test_width_of_a_copy(self):
        narrow = RangeSet([GREATEST[32]], bits=32, signed=False)
        for kind in KINDS:
            self.assertEqual((kind(narrow).bits, kind(narrow).signed), (32, False))
            self.assertEqual((kind(narrow, bits=64).bits, kind(narrow, bits=64).signed), (64, True))
        self.assertEqual(RangeSet(narrow, bits=64), RangeSet([GREATEST[32]]))
        self.assertEqual(RangeSet(RangeSet(narrow, bits=64), bits=32, signed=False), narrow)

    def test_contains(self):
        for kind, bits in EACH:
            made = kind([Run(1, 5), GREATEST[bits]], bits=bits, signed=False)
            for inside in (1, 5, GREATEST[bits], True, range(1, 6), range(2, 3), Run(1, 5), range(9, 9), Run(9, 8)):
                self.assertIn(inside, made)
            for outside in (0, 6, -1, 2**bits, 10**30, range(0, 3), Run(1, 6), range(-1, 3), Run(5, 2**bits)):
                self.assertNotIn(outside, made)

    def test_add(self):
        for bits in GREATEST:
            made = RangeSet(bits=bits, signed=False)
            for arguments in ((9, 11), (range(13, 19),), (Run(12, 12),)):
                self.assertIs(made.add(*arguments), True)
            for arguments in ((10, 17), (18,), (20, 19), (range(30, 30),)):
                self.assertIs(made.add(*arguments), False)
            self.assertEqual(str(made), "9..=18")

    def test_discard_and_remove(self):
        for bits in GREATEST:
            made = RangeSet(range(10), bits=bits, signed=False)
            self.assertIs(made.discard(8, 20), True)
            self.assertIs(made.discard(8, 20), False)
            made.remove(3, 4)
            made.remove(range(4, 4))
            made.remove(0)
            with self.assertRaisesRegex(KeyError, "0"):
                made.remove(0)
            with self.assertRaisesRegex(KeyError, r"range\(1, 4\)"):
                made.remove(range(1, 4))
            with self.assertRaisesRegex(KeyError, r"Run\(first=1, last=3\)"):
                made.remove(1, 3)
            self.assertEqual(str(made), "1..=2, 5..=7")

    def test_pop_and_clear(self):
        made = RangeSet([3, range(7, 9)])
        self.assertEqual([made.pop(), made.pop(), made.pop()], [3, 7, 8])
        self.assertRaises(KeyError, made.pop)
        made.update(range(5))
        made.clear()
        self.assertEqual(made, RangeSet())

    def test_counts(self):
        for kind, bits in EACH:
            full = ~kind(bits=bits, signed=False)
            self.assertEqual(full.count(), 2**bits)
            self.assertEqual(full.count(1, GREATEST[bits]), GREATEST[bits])
            self.assertEqual(full.rank(GREATEST[bits]), GREATEST[bits])
            made = kind([range(1, 6), range(10, 21)], bits=bits, signed=False)
            self.assertEqual((len(made), made.count(), made.count(5, 10), made.count(7)), (16, 16, 2, 0))
            self.assertEqual((made.count(range(0)), made.count(9, 1), made.count(Run(0, 1))), (0, 0, 1))
            self.assertEqual([made.rank(value) for value in (0, 1, 6, 9, 12)], [0, 0, 5, 5, 7])
        self.assertRaises(OverflowError, len, ~RangeSet())
        self.assertRaises(OverflowError, len, ~RangeSet(bits=128))
        self.assertEqual(len(~RangeSet(bits=32)), 2**32)
        self.assertTrue(~RangeSet())

    def test_places(self):
        for kind, bits in EACH:
            made = kind([range(1, 6), range(10, 21)], bits=bits, signed=False)
            self.assertEqual((made[0], made[4], made[5], made[-1]), (1, 5, 10, 20))
            for place in (16, -17, 2**64, -(2**64)):
                self.assertRaises(IndexError, made.__getitem__, place)
            self.assertEqual(str(made[3:7]), "4..=5, 10..=11")
            self.assertEqual((made[:], made[:-99], made[5:2]), (made, kind(bits=bits, signed=False), kind(bits=bits, signed=False)))
            self.assertIs(type(made[3:7]), kind)
            self.assertEqual((~kind(bits=bits, signed=False))[-1], GREATEST[bits])
        self.assertIn(random.choice(RangeSet([range(5), range(10, 20)])), range(20))

    def test_iteration(self):
        made = RangeSet([range(1, 4), 10, -(2**63), 2**63 - 1])
        self.assertEqual(list(made), [-(2**63), 1, 2, 3, 10, 2**63 - 1])
        self.assertEqual(list(reversed(made)), [2**63 - 1, 10, 3, 2, 1, -(2**63)])
        self.assertEqual(sum(RangeSet(range(101))), 5050)


class LookUps(unittest.TestCase):
    def test_ends(self):
        for kind, bits in EACH:
            made = kind([Run(3, 5), GREATEST[bits]], bits=bits, signed=False)
            self.assertEqual((made.first(), made.last()), (3, GREATEST[bits]))
            self.assertEqual((kind(bits=bits, signed=False).first(), kind(bits=bits, signed=False).last()), (None, None))

    def test_runs(self):
        for kind, bits in EACH:
            top = GREATEST[bits]
            made = kind([Run(0, 5), Run(10, 20), Run(top - 1, top)], bits=bits, signed=False)
            low, middle, high = made.runs()
            self.assertEqual((low, middle, high), (Run(0, 5), Run(10, 20), Run(top - 1, top)))
            self.assertEqual((made.run_of(10), made.run_of(6)), (middle, None))
            self.assertEqual((made.gap_of(10), made.gap_of(6)), (None, Run(6, 9)))
            self.assertEqual((made.next_run(), made.next_run(5), made.next_run(6)), (low, low, middle))
            self.assertEqual((made.prev_run(), made.prev_run(9), made.prev_run(10)), (high, low, middle))
            self.assertEqual((made.run_after(0), made.run_after(9), made.run_after(top)), (middle, middle, None))
            self.assertEqual((made.run_before(20), made.run_before(21), made.run_before(5)), (low, middle, None))

    def test_views(self):
        for kind, bits in EACH:
            top = GREATEST[bits]
            made = kind([Run(0, 5), Run(10, 20)], bits=bits, signed=False)
            self.assertEqual(list(made.gaps()), [Run(6, 9), Run(21, top)])
            self.assertEqual(list(reversed(made.gaps())), [Run(21, top), Run(6, 9)])
            self.assertEqual(list(reversed(made.runs())), [Run(10, 20), Run(0, 5)])
            self.assertEqual((len(made.runs()), len(made.gaps())), (2, 2))
            self.assertEqual(list((~kind(bits=bits, signed=False)).gaps()), [])
            self.assertEqual(list(kind(bits=bits, signed=False).gaps()), [Run(0, top)])
            self.assertEqual(repr(made.runs()), "Runs([Run(first=0, last=5), Run(first=10, last=20)])")

    def test_a_change_ends_a_walk(self):
        """As for a Python set, whose loop raises RuntimeError if it adds or removes a member."""
        walks = (lambda it: it, lambda it: it.runs(), lambda it: it.gaps(), lambda it: it.ranges())
        walks += tuple(lambda it, walk=walk: reversed(walk(it)) for walk in walks)
        changes = (lambda it, value: it.add(value + 20), lambda it, value: it.discard(5), lambda it, _: it.pop())
        changes += (lambda it, _: it.clear(), lambda it, _: it.update([99]), lambda it, _: it.__ior__({50}))
        changes += (lambda it, _: it.__iand__({7}), lambda it, _: it.__isub__({5}), lambda it, _: it.__ixor__({5}))
        for bits in GREATEST:
            for walk in walks:
                for change in changes:
                    made, steps = RangeSet([range(1, 10), 12, 40], bits=bits, signed=False), 0
                    with self.assertRaisesRegex(RuntimeError, "changed during iteration"):
                        for at in walk(made):
                            steps += 1
                            change(made, at if isinstance(at, int) else at.last % 99)
                    self.assertEqual(steps, 1)

    def test_a_walk_goes_on_if_a_call_changes_nothing(self):
        made = RangeSet([range(1, 10), 12])
        for at in made:
            self.assertFalse(made.add(at) or made.discard(at + 20))
            made.update([at], made)
            made |= {at}
        self.assertEqual(at, 12)

    def test_walks_past_a_block(self):
        for bits, top in GREATEST.items():
            for count in (63, 64, 65, 127, 128, 129, 200):
                for last in (0, top):
                    runs = [Run(3 * at, 3 * at + 1) for at in range(count)] + [Run(top, top)] * (last > 0)
                    made = RangeSet(runs, bits=bits, signed=False)
                    self.assertEqual((list(made.runs()), list(reversed(made.runs()))), (runs, runs[::-1]))

    def test_gaps_beside(self):
        for kind, bits in EACH:
            top = GREATEST[bits]
            made = kind([Run(0, 5), Run(10, 20), Run(30, top - 1)], bits=bits, signed=False)
            low, middle, high = made.gaps()
            self.assertEqual((low, middle, high), (Run(6, 9), Run(21, 29), Run(top, top)))
            self.assertEqual([made.next_gap(it) for it in (0, 5, 6, 9, 10, 30, top)], [low, low, low, low, middle, high, high])
            self.assertEqual([made.prev_gap(it) for it in (0, 5, 9, 10, 29, top - 1, top)], [None, None, low, low, middle, middle, high])
            self.assertEqual([made.gap_after(it) for it in (0, 5, 6, 9, 21, 30, top)], [low, low, middle, middle, high, high, None])
            self.assertEqual([made.gap_before(it) for it in (0, 9, 10, 20, 21, 30, top)], [None, None, low, low, low, middle, middle])
            self.assertEqual((made.next_gap(), made.prev_gap()), (low, high))
            for empty in (kind(bits=bits, signed=False), ~kind(bits=bits, signed=False)):
                whole = Run(0, top) if not empty else None
                for value in (0, 7, top):
                    self.assertEqual((empty.next_gap(value), empty.prev_gap(value)), (whole, whole))
                    self.assertEqual((empty.gap_after(value), empty.gap_before(value)), (None, None))

    def test_first_gap(self):
        for kind, bits in EACH:
            top = GREATEST[bits]
            made = kind([Run(0, 5), Run(8, 20), Run(30, top - 1)], bits=bits, signed=False)
            self.assertEqual(made.first_gap(), Run(6, 7))
            self.assertEqual(made.first_gap(3), Run(21, 29))
            self.assertEqual(made.first_gap(3, 25), Run(25, 29))
            self.assertEqual(made.first_gap(3, start=28), None)
            self.assertEqual(made.first_gap(length=1, start=30), Run(top, top))
            self.assertEqual(made.first_gap(10**30), None)
            empty = kind(bits=bits, signed=False)
            self.assertEqual(empty.first_gap(2**bits), Run(0, top))
            self.assertEqual((empty.first_gap(2**bits + 1), empty.first_gap(2**bits, 1)), (None, None))

    def test_run(self):
        run = Run(10, 20)
        first, last = run
        self.assertEqual((first, last, run.size, run.values(), run.first, run.last), (10, 20, 11, range(10, 21), 10, 20))
        self.assertTrue(15 in run and 10 in run and 20 in run and 15.0 in run)
        self.assertFalse(9 in run or 21 in run or "x" in run or 15 in Run(20, 10))
        self.assertEqual((run, hash(run), repr(run)), (Run(10, 20), hash(Run(10, 20)), "Run(first=10, last=20)"))
        self.assertTrue(run != Run(10, 21) and run != (10, 20) and (10, 20) != run and run != range(10, 21))
        self.assertEqual(sorted([Run(5, 9), Run(1, 3), Run(1, 2)]), [Run(1, 2), Run(1, 3), Run(5, 9)])
        self.assertNotIsInstance(run, tuple)
        for refused in (lambda: len(run), lambda: run[0], lambda: setattr(run, "first", 1), lambda: run < (1, 2)):
            self.assertRaises((TypeError, AttributeError), refused)
        for way in (copy.copy, copy.deepcopy, lambda it: pickle.loads(pickle.dumps(it))):
            self.assertEqual(way(run), run)

    def test_runs_by_way_of_pairs(self):
        made = RangeSet([range(3), range(7, 9)])
        pairs = json.loads(json.dumps([tuple(run) for run in made.runs()]))
        self.assertEqual(pairs, [[0, 2], [7, 8]])
        self.assertEqual(RangeSet(Run(*pair) for pair in pairs), made)


class Algebra(unittest.TestCase):
    def test_operators(self):
        for kind, bits in EACH:
            left, right = kind([range(1, 6), 9], bits=bits, signed=False), RangeSet(range(4, 10), bits=bits, signed=False)
            for made, text in (
                (left | right, "1..=9"),
                (left & right, "4..=5, 9..=9"),
                (left - right, "1..=3"),
                (left ^ right, "1..=3, 6..=8"),
                (~left, f"0..=0, 6..=8, 10..={GREATEST[bits]}"),
            ):
                self.assertEqual(str(made), text)
                self.assertIs(type(made), kind)
                self.assertEqual(made.bits, bits)

    def test_one_set_twice(self):
        for kind, bits in EACH:
            one, none = kind([range(5), 9], bits=bits, signed=False), kind(bits=bits, signed=False)
            self.assertEqual((one | one, one & one, one - one, one ^ one), (one, one, none, none))
            self.assertTrue(one == one and one <= one and one >= one and not one < one and not one > one)
            self.assertTrue(one.issubset(one) and one.issuperset(one) and not one.isdisjoint(one))
            self.assertTrue(none.isdisjoint(none))
            self.assertEqual(one.compare(one), 0)
            self.assertEqual(one.union(one, one), one)
            self.assertEqual(one.symmetric_difference(one, one), one)
            self.assertEqual(one.intersection(one, one, one), one)
            self.assertEqual(one.difference(one), none)

    def test_one_set_twice_in_place(self):
        for change, left in (("__ior__", 5), ("__iand__", 5), ("__isub__", 0), ("__ixor__", 0)):
            made = RangeSet(range(5))
            self.assertIs(getattr(made, change)(made), made)
            self.assertEqual(len(made), left)
        made = RangeSet(range(5))
        made.update(made, made)
        self.assertEqual(len(made), 5)
        made.difference_update(made)
        self.assertFalse(made)

    def test_methods_take_many(self):
        for kind, bits in EACH:
            made = kind(range(10), bits=bits, signed=False)
            self.assertEqual(str(made.union([12], range(20, 22), Run(30, 31))), "0..=9, 12..=12, 20..=21, 30..=31")
            self.assertEqual(str(made.intersection(range(2, 20), {3, 4, 8})), "3..=4, 8..=8")
            self.assertEqual(str(made.difference([1], range(3, 5), Run(9, 20))), "0..=0, 2..=2, 5..=8")
            self.assertEqual(str(made.symmetric_difference(range(5, 15), [0])), "1..=4, 10..=14")
            for same in (made.union(), made.intersection(), made.difference(), made.symmetric_difference()):
                self.assertEqual(same, made)

    def test_at_least(self):
        for kind, bits in EACH:
            sets = kind([range(1, 6)], bits=bits, signed=False), RangeSet([range(4, 10)], bits=bits, signed=False), [5, range(9, 13)]
            made = [kind.at_least(k, sets) for k in range(1, 5)]
            self.assertEqual([str(it) for it in made], ["1..=12", "4..=5, 9..=9", "5..=5", ""])
            self.assertEqual({(type(it), it.bits) for it in made}, {(kind, bits)})
            self.assertEqual(kind.at_least(0, sets), ~kind(bits=bits, signed=False))
            self.assertEqual(kind.at_least(0, [], bits=bits, signed=False), ~kind(bits=bits, signed=False))
            self.assertEqual(kind.at_least(10**30, sets), kind(bits=bits, signed=False))
            self.assertEqual(kind.at_least(2, [sets[0], sets[0]]), sets[0])
            self.assertEqual(str(kind.at_least(1, [[3], range(5)], bits=bits, signed=False)), "0..=4")
            self.assertRaises(ValueError, kind.at_least, -1, sets)
            self.assertRaises(TypeError, kind.at_least, 1.5, sets)
            self.assertRaises(OverflowError, kind.at_least, 1, [sets[0], [-1]])
        self.assertEqual(RangeSet.at_least(1, []), RangeSet())
        self.assertRaises(ValueError, RangeSet.at_least, 1, [RangeSet(), RangeSet(bits=32)])

    def test_updates(self):
        for bits in GREATEST:
            made = RangeSet(range(10), bits=bits, signed=False)
            made.update([12], Run(20, 21))
            made.intersection_update(range(5, 30), range(40))
            made.difference_update([9], range(6, 7))
            made.symmetric_difference_update(range(20, 23))
            self.assertEqual(str(made), "5..=5, 7..=8, 12..=12, 22..=22")

    def test_in_place_operators_keep_the_object(self):
        made = same = RangeSet(range(10))
        made |= FrozenRangeSet([20])
        made &= RangeSet(range(5, 30))
        made -= RangeSet([7])
        made ^= RangeSet([20, 21])
        self.assertIs(made, same)
        self.assertEqual(str(made), "5..=6, 8..=9, 21..=21")

    def test_in_place_operators_of_a_frozen_set_make_another(self):
        made = before = FrozenRangeSet(range(3))
        made |= RangeSet([5])
        self.assertEqual((list(before), list(made), type(made)), ([0, 1, 2], [0, 1, 2, 5], FrozenRangeSet))


class Comparisons(unittest.TestCase):
    def test_subsets_as_for_sets(self):
        texts = "", "1..=1", "1..=5", "3..=9", "1..=9"
        for kind, bits in EACH:
            for left_text in texts:
                for right_text in texts:
                    left, right = kind.parse(left_text, bits=bits, signed=False), RangeSet.parse(right_text, bits=bits, signed=False)
                    one, other = set(left), set(right)
                    self.assertEqual((left == right, left != right), (one == other, one != other))
                    self.assertEqual((left <= right, left < right), (one <= other, one < other))
                    self.assertEqual((left >= right, left > right), (one >= other, one > other))
                    self.assertEqual(left.issubset(other), one.issubset(other))
                    self.assertEqual(left.issuperset(other), one.issuperset(other))
                    self.assertEqual(left.isdisjoint(other), one.isdisjoint(other))
                    order = (sorted(one) > sorted(other)) - (sorted(one) < sorted(other))
                    self.assertEqual(left.compare(right), order)

    def test_sort(self):
        sets = [RangeSet([2]), RangeSet([1, 3]), RangeSet(), RangeSet([1])]
        ordered = sorted(sets, key=functools.cmp_to_key(RangeSet.compare))
        self.assertEqual([str(it) for it in ordered], ["", "1..=1", "1..=1, 3..=3", "2..=2"])

    def test_ranges(self):
        made = RangeSet(range(5, 10))
        self.assertTrue(made.isdisjoint(range(5)) and made.issuperset(Run(6, 7)) and made.issubset(range(20)))

    def test_other_types(self):
        made = RangeSet([1])
        self.assertFalse(made == 1 or made == "1" or made == {1: 1} or made == None or made == (x for x in [1]))  # noqa: E711
        self.assertIsInstance(made, abc.MutableSet)
        self.assertIsInstance(FrozenRangeSet(), abc.Set)
        self.assertNotIsInstance(FrozenRangeSet(), abc.MutableSet)

    def test_all_that_sets_have(self):
        for kind, model in ((RangeSet, set), (FrozenRangeSet, frozenset)):
            missing = set(dir(model)) - set(dir(kind))
            self.assertEqual(missing - {"__class_getitem__"}, set())

    def test_widths_compare_by_members(self):
        wide, narrow, large = RangeSet([1]), FrozenRangeSet([1], bits=32), RangeSet([1, 2**40])
        self.assertTrue(wide == narrow and narrow == wide and not wide < narrow and wide <= narrow and wide >= narrow)
        self.assertTrue(narrow < large and large > narrow and narrow != large and narrow.issubset(large))
        self.assertTrue(large.issuperset(narrow) and not large.isdisjoint(narrow) and narrow.isdisjoint(RangeSet([7])))
        self.assertEqual((narrow.compare(wide), narrow.compare(large), large.compare(narrow)), (0, -1, 1))
        self.assertEqual(hash(FrozenRangeSet([1])), hash(narrow))


class OwnSet(abc.Set):
    """A user's set."""

    def __init__(self, members):
        self.kept = sorted(set(members))

    def __contains__(self, value):
        return value in self.kept

    def __iter__(self):
        return iter(self.kept)

    def __len__(self):
        return len(self.kept)


class PythonSets(unittest.TestCase):
    """Range sets beside Python's sets of the same members, with each on the left and on the right."""

    members = set(), {1}, {1, 2, 3}, {2, 4}, {0, 2, 4}, set(range(6)), {3, 9}

    def forms(self, members):
        """Returns Python sets with these members, of each kind that has operators."""
        forms = [set(members), frozenset(members), dict.fromkeys(members).keys(), {it: 1 for it in members}.keys()]
        return forms + [OwnSet(members)]

    def test_comparisons(self):
        for kind, bits in EACH:
            for left in self.members:
                made = kind(left, bits=bits, signed=False)
                for right in self.members:
                    for other in self.forms(right):
                        self.assertEqual((made == other, other == made), (left == right,) * 2)
                        self.assertEqual((made != other, other != made), (left != right,) * 2)
                        self.assertEqual((made <= other, other >= made), (left <= right,) * 2)
                        self.assertEqual((made < other, other > made), (left < right,) * 2)
                        self.assertEqual((made >= other, other <= made), (left >= right,) * 2)
                        self.assertEqual((made > other, other < made), (left > right,) * 2)

    def test_operators(self):
        for kind, bits in EACH:
            for left in self.members:
                made = kind(left, bits=bits, signed=False)
                for right in self.members:
                    for other in self.forms(right):
                        self.assertEqual((made | other, other | made), (left | right,) * 2)
                        self.assertEqual((made & other, other & made), (left & right,) * 2)
                        self.assertEqual((made ^ other, other ^ made), (left ^ right,) * 2)
                        self.assertEqual((made - other, other - made), (left - right, right - left))
                        self.assertIs(type(made | other), kind)

    def test_types_of_results(self):
        for kind, bits in EACH:
            made = kind([1, 2], bits=bits, signed=False)
            for other in ({1, 5}, frozenset([1, 5])):
                results = made | other, other | made, made & other, other & made, made - other, other - made, other ^ made
                self.assertEqual({(type(it), it.bits) for it in results}, {(kind, bits)})

    def test_in_place(self):
        made = same = RangeSet(range(6))
        made |= {9}
        made &= frozenset([1, 2, 9, -5])
        made -= {2: 0, "x": 0}.keys()
        made ^= {1, 3}
        self.assertIs(made, same)
        self.assertEqual(made, {3, 9})
        plain = {1, 2}
        plain |= made
        self.assertEqual((type(plain), plain), (RangeSet, {1, 2, 3, 9}))

    def test_ranges_in_a_python_set_are_no_members(self):
        made = RangeSet([1])
        self.assertFalse(made == {Run(1, 1)} or made == {range(1, 2)} or made >= {Run(1, 1)} or made <= {range(1, 2)})

    def test_hashes(self):
        for bits in GREATEST:
            for members in (*self.members, {2**32 - 1}, set(range(0, 999, 7)), {2**31, 5}):
                frozen = FrozenRangeSet(members, bits=bits, signed=False)
                self.assertEqual((frozen, hash(frozen)), (frozenset(members), hash(frozenset(members))))
                self.assertEqual({frozenset(members): 7}[frozen], 7)
        large = frozenset([2**61 - 2, 2**61 - 1, 2**61, 2**62, 2**64 - 1, 2**64, -1, -2, -(2**61), -(2**64)])
        self.assertEqual(hash(FrozenRangeSet(large, bits=128)), hash(large))

    def test_hashes_of_sets_that_are_too_large_for_a_frozenset(self):
        for bits, top in GREATEST.items():
            whole = ~FrozenRangeSet(bits=bits, signed=False)
            self.assertEqual(hash(whole), hash(FrozenRangeSet([Run(9, top), range(20)], bits=bits, signed=False)))
        part = FrozenRangeSet([range(5), Run(6, 2**40)])
        self.assertEqual(hash(part), hash(FrozenRangeSet(range(2**40 + 1)) - RangeSet([5])))
        self.assertNotEqual(hash(part), hash(FrozenRangeSet(range(2**40 + 1))))

    def test_assertions_of_unittest(self):
        self.assertEqual(RangeSet(range(3)), {0, 1, 2})
        self.assertSetEqual(RangeSet(range(3)), {0, 1, 2})
        self.assertCountEqual(RangeSet(range(3)), [2, 1, 0])


if __name__ == "__main__":
    unittest.main()
