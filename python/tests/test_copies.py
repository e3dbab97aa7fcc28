"""Copies, pickles and text of sets."""

import copy
import datetime
import ipaddress
import pickle
import struct
import unittest

import kinds
import range_set
from kinds import KINDS
from range_set import DateSet, FrozenRangeSet, RangeSet, Run


class Named(RangeSet):
    """A subclass with a state of its own and another constructor."""

    def __init__(self, name, values=()):
        super().__init__(values)
        self.name = name


def samples():
    """Yields sets of each type, with the options of their constructor."""
    for kind in KINDS:
        low, top = kind.least, kind.greatest
        for of in kind.types:
            for numbers in ((), [low + 1], [(low, low + 5), (low + 10, low + 20)], [(low, top)], [low, top]):
                yield kind.made(numbers, of), kind.options


class Copies(unittest.TestCase):
    def test_each_way_to_copy(self):
        ways = [copy.copy, copy.deepcopy, lambda it: it.copy(), lambda it: type(it)(it)]
        for protocol in range(pickle.HIGHEST_PROTOCOL + 1):
            ways.append(lambda it, protocol=protocol: pickle.loads(pickle.dumps(it, protocol)))
        for made, _ in samples():
            for way in ways:
                other = way(made)
                self.assertEqual((other, type(other), other.element), (made, type(made), made.element))

    def test_a_copy_is_another_set(self):
        for way in (copy.copy, copy.deepcopy, RangeSet.copy, RangeSet):
            made = RangeSet(range(5))
            other = way(made)
            other.add(9)
            made.clear()
            self.assertEqual(list(other), [0, 1, 2, 3, 4, 9])
            self.assertFalse(made)

    def test_a_frozen_copy_is_the_same_set(self):
        made = FrozenRangeSet(range(5))
        for other in (copy.copy(made), copy.deepcopy(made), made.copy(), FrozenRangeSet(made)):
            self.assertIs(other, made)
        self.assertIsNot(made.union(), made)

    def test_freezing(self):
        made = RangeSet(range(5))
        frozen = FrozenRangeSet(made)
        made.add(9)
        self.assertEqual(list(frozen), [0, 1, 2, 3, 4])
        self.assertEqual({frozen: "low"}[FrozenRangeSet(range(5))], "low")
        self.assertEqual(frozen, RangeSet(frozen))
        self.assertIs(type(RangeSet(frozen)), RangeSet)

    def test_a_set_inside_of_itself(self):
        box = [RangeSet([1])]
        box.append(box[0])
        left, right = copy.deepcopy(box)
        self.assertEqual(left, right)

    def test_subclasses(self):
        made = Named("hours", range(9, 19))
        other = pickle.loads(pickle.dumps(made))
        self.assertEqual((other.name, other, type(other)), ("hours", made, Named))
        self.assertIs(type(made | RangeSet([1])), Named)
        self.assertEqual(RangeSet([1]) | made, made | RangeSet([1]))
        self.assertTrue(RangeSet([10]) < made and made > RangeSet([10]))

    def test_a_pickle_names_the_package(self):
        self.assertNotIn(b"range_set.", pickle.dumps(RangeSet([1])))

    def test_walks_are_not_copied(self):
        for way in (copy.copy, copy.deepcopy, pickle.dumps):
            self.assertRaises(TypeError, way, iter(RangeSet([1]).runs()))

    def test_pickles_of_version_0_1(self):
        """Those sets had ints from 0 to 2**bits - 1."""
        old = {
            b"c__builtin__\ngetattr\n(crange_set\nRangeSet\nV_restored\ntR(I64\nc_codecs\nencode\n(V%s\nVlatin1\ntRtR.": RangeSet,
            b"c__builtin__\ngetattr\n(crange_set\nFrozenRangeSet\nV_restored\ntR(I64\nc_codecs\nencode\n(V%s\nVlatin1\ntRtR.": FrozenRangeSet,
        }
        for form, kind in old.items():
            ends = "".join("\\u%04x" % byte for byte in struct.pack("<4Q", 1, 5, 2**64 - 2, 2**64 - 1)).encode()
            made = pickle.loads(form % ends)
            self.assertEqual((made, type(made), made.bits, made.signed), ([(1, 5), (2**64 - 2, 2**64 - 1)], kind, 64, False))

    def test_pickles_with_other_bytes(self):
        """A pickle of a version between 0.1 and 0.2 has the ends of runs. None of a set begins as the bytes of a set do."""
        for data in (b"", bytes(8), struct.pack("<2Q", 1, 5)):
            self.assertRaisesRegex(ValueError, "NotMagic|CutShort", RangeSet._unpickled, {}, data)
        self.assertRaises(ValueError, DateSet._unpickled, {}, RangeSet([1]).to_bytes())


class Text(unittest.TestCase):
    def test_repr_makes_the_set_again(self):
        names = {**vars(range_set), **vars(ipaddress), "datetime": datetime, **vars(kinds)}
        for made, options in samples():
            other = eval(repr(made).replace(repr(kinds.STEPS), "STEPS"), names)
            self.assertEqual((other, type(other), other.element), (made, type(made), made.element))

    def test_reprs(self):
        self.assertEqual(repr(RangeSet()), "RangeSet()")
        self.assertEqual(repr(FrozenRangeSet(bits=32)), "FrozenRangeSet(bits=32)")
        self.assertEqual(repr(RangeSet([-1], bits=128, signed=True)), "RangeSet([range(-1, 0)], bits=128)")
        self.assertEqual(repr(RangeSet([1], signed=False)), "RangeSet([range(1, 2)], signed=False)")
        self.assertEqual(repr(RangeSet([5, range(1, 4)], bits=32)), "RangeSet([range(1, 4), range(5, 6)], bits=32)")

    def test_text_and_back(self):
        self.assertEqual(str(RangeSet([range(1, 6), range(10, 21)])), "1..=5, 10..=20")
        for made, options in samples():
            self.assertEqual(type(made).parse(str(made), **options), made)

    def test_other_spellings(self):
        for text, plain in (
            ("", ""),
            (" \t\r\n", ""),
            ("5", "5..=5"),
            ("10..=20,1..=5", "1..=5, 10..=20"),
            (" 1 ..= 5\n,\t6 ", "1..=6"),
            ("5..=1", ""),
            ("+3..=+4, -0, 007", "0..=0, 3..=4, 7..=7"),
        ):
            self.assertEqual(str(RangeSet.parse(text)), plain)


if __name__ == "__main__":
    unittest.main()
