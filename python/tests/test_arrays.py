"""Arrays in and out: of `array`, of buffers, and of numpy if it is there."""

import random
import unittest
from array import array
from datetime import date

from kinds import INTS
from range_set import CharSet, DateSet, FrozenRangeSet, RangeSet

try:
    import numpy
except ImportError:
    numpy = None

CODES = "bBhHiIlLqQ"


class Arrays(unittest.TestCase):
    def test_values_in(self):
        for kind in INTS:
            for code in CODES:
                numbers = array(code, [5, 1, 2, 2, 3, 100])
                for given in (numbers, memoryview(numbers), memoryview(array(code, [7] * 12))[::2]):
                    self.assertEqual(kind.changing(given, **kind.options), set(given))
                self.assertEqual(kind.made([3]) | numbers, {1, 2, 3, 5, 100})
                self.assertEqual(numbers - kind.made([3]), {1, 2, 5, 100})
                self.assertTrue(kind.made([1, 2, 3, 5, 100]) == numbers == kind.made([1, 2, 3, 5, 100]))

    def test_ends_of_the_types_of_numbers(self):
        for code in CODES:
            bits, is_signed = 8 * array(code).itemsize, code.islower()
            least, greatest = (-(2 ** (bits - 1)), 2 ** (bits - 1) - 1) if is_signed else (0, 2**bits - 1)
            numbers = array(code, [least, greatest, 0])
            for kind in INTS:
                inside = {it for it in numbers if kind.least <= it <= kind.greatest}
                if len(inside) == len(set(numbers)):
                    self.assertEqual(kind.changing(numbers, **kind.options), inside)
                else:
                    self.assertRaisesRegex(OverflowError, "does not fit", kind.changing, numbers, **kind.options)
                made = kind.made(list(inside))
                self.assertEqual(made.contains_array(numbers).tolist(), [it in inside for it in numbers])
                self.assertEqual((made == numbers, made >= numbers), (inside == set(numbers),) * 2)
                self.assertEqual((made & numbers, made - numbers, made.isdisjoint(numbers)), (made, [], False))

    def test_out(self):
        for kind in INTS:
            made = kind.made([(kind.least, kind.least + 2), (5, 8), kind.greatest])
            if kind.name.endswith("128"):
                self.assertRaisesRegex(ValueError, "128 bits", made.to_array)
                self.assertRaisesRegex(ValueError, "128 bits", made.runs_array)
                continue
            values, ends = made.to_array(), made.runs_array()
            self.assertEqual((list(values), values.itemsize * 8), (list(made), made.bits))
            self.assertEqual(list(ends), [end for run in made.runs() for end in run])
            self.assertEqual((kind.changing(values, **kind.options), kind.changing.from_runs(rows(ends), **kind.options)), (made, made))
            self.assertEqual((list(kind.made().to_array()), list(kind.made().runs_array())), ([], []))
            self.assertEqual(list((~kind.made()).runs_array()), [kind.least, kind.greatest])

    def test_runs_in(self):
        ends = array("q", [1, 5, 3, 9, 20, 19, -7, -7])
        for made in (RangeSet(rows(ends)), RangeSet.from_runs(rows(ends)), RangeSet([9]) | rows(ends)):
            self.assertEqual(str(made), "-7..=-7, 1..=9")
        self.assertRaisesRegex(ValueError, "two columns", RangeSet, memoryview(bytes(24)).cast("q", (1, 3)))
        narrow = RangeSet(bits=32)
        self.assertRaises(OverflowError, narrow.update, rows(array("q", [0, 2**40])))
        self.assertFalse(narrow)
        self.assertEqual(narrow.union([7]) & rows(array("q", [0, 2**40])), {7})

    def test_many(self):
        source = random.Random(1)
        numbers = [source.randrange(-(2**40), 2**40) for _ in range(20_000)] + list(range(5000))
        made = RangeSet(array("q", numbers))
        self.assertEqual((made, list(made.to_array())), (RangeSet(numbers), sorted(set(numbers))))
        asked = [source.choice([it, it + 1]) for it in numbers]
        kept = set(numbers)
        self.assertEqual(made.contains_array(array("q", asked)).tolist(), [it in kept for it in asked])
        self.assertEqual(made.contains_array(asked).tolist(), [it in kept for it in asked])

    def test_others(self):
        self.assertRaises(TypeError, RangeSet, array("d", [1.0]))
        self.assertRaises(TypeError, RangeSet, "12")
        self.assertEqual(RangeSet(b"\x01\x07"), {1, 7})
        for call in (DateSet([date.min]).to_array, CharSet("a").runs_array):
            self.assertRaisesRegex(TypeError, "sets of ints", call)
        self.assertEqual(CharSet("a").contains_array(["a", "b", 5]).tolist(), [True, False, False])
        self.assertRaises(TypeError, DateSet, array("q", [1]))


def rows(ends):
    """Returns pairs of numbers as a buffer with two columns."""
    return memoryview(ends).cast("B").cast(ends.typecode, (len(ends) // 2, 2))


@unittest.skipUnless(numpy, "needs numpy")
class Numpy(unittest.TestCase):
    def test_operators(self):
        for made in (RangeSet([1, 2, 3, 10]), FrozenRangeSet([1, 2, 3, 10])):
            two = numpy.array([2])
            self.assertEqual((made - two, made & two, two & made, two - made, made | two), ({1, 3, 10}, {2}, {2}, [], made))
            self.assertTrue((made == numpy.array([1, 2, 3, 10])) is True and (two <= made) is True and (made == two) is False)
            for wrong in (numpy.int64(2), numpy.array(2)):
                self.assertRaises(TypeError, lambda: made & wrong)
                self.assertRaises(TypeError, lambda: wrong & made)
        changed = RangeSet([1, 2, 3])
        changed -= numpy.array([2])
        self.assertEqual((type(changed), changed), (RangeSet, {1, 3}))

    def test_in_and_out(self):
        for dtype in ("i1", "u1", "i2", "u2", "i4", "u4", "i8", "u8", ">i4"):
            self.assertEqual(RangeSet(numpy.array([3, 1, 2, 9], dtype)), [(1, 3), 9])
            self.assertEqual(RangeSet([5]).union(numpy.array([3, 1], dtype)[::-1]), {1, 3, 5})
        made = RangeSet(numpy.array([[1, 5], [7, 9]]))
        self.assertEqual(str(made), "1..=5, 7..=9")
        self.assertEqual(numpy.asarray(made.runs_array()).reshape(-1, 2).tolist(), [[1, 5], [7, 9]])
        self.assertEqual((numpy.asarray(made.to_array()).dtype, numpy.asarray(made.to_array()).tolist()), ("int64", list(made)))
        self.assertEqual(numpy.asarray(RangeSet().runs_array()).reshape(-1, 2).shape, (0, 2))
        inside = numpy.asarray(made.contains_array(numpy.arange(4)))
        self.assertEqual((inside.dtype, inside.tolist()), ("bool", [False, True, True, True]))
        for wrong in (numpy.array([1.5]), numpy.array([[1, 2, 3]]), numpy.zeros((2, 2, 2), int)):
            self.assertRaises((TypeError, ValueError), RangeSet, wrong)

    def test_numbers_of_numpy(self):
        made = RangeSet([numpy.int64(5), (numpy.int32(7), numpy.uint8(9))])
        self.assertTrue(numpy.int8(5) in made and numpy.float64(5) in made and numpy.int64(6) not in made)
        self.assertEqual((made.rank(numpy.int64(8)), made.add(numpy.uint64(1)), list(made)), (2, True, [1, 5, 7, 8, 9]))

    def test_an_array_of_a_set(self):
        self.assertEqual(numpy.array(RangeSet([range(3), 9])).tolist(), [0, 1, 2, 9])
        self.assertEqual(numpy.array(RangeSet([2**100], bits=128)).tolist(), [2**100])
        self.assertEqual(numpy.array(RangeSet([1]), dtype="u1").dtype, "uint8")
        self.assertEqual(numpy.array(CharSet("ab")).tolist(), ["a", "b"])
        self.assertEqual(numpy.isin([1, 5], numpy.asarray(RangeSet([5]))).tolist(), [False, True])


if __name__ == "__main__":
    unittest.main()
