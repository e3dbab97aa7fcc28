"""Sets as bytes: the rows of docs/FORMAT.md, each type of sets, and bytes that are no set."""

import itertools
import mmap
import random
import tempfile
import unittest
from array import array
from datetime import date

from kinds import INTS, KINDS, STEPS, Step
from range_set import AddressSet, CharSet, DateSet, Element, ElementSet, FrozenRangeSet, RangeSet

HEADS = {32: "f5 52 53 42 01 20", 64: "f5 52 53 42 01 40", 128: "f5 52 53 42 01 80"}
REASONS = "NotMagic OtherVersion OtherWidth CutShort NotShortest Touching PastGreatest TooLong".split()

# An element whose sets are few enough to list.
SMALL = Element(int, int, 0, 11)


def number(value):
    """Returns the bytes of a number, as docs/FORMAT.md says."""
    made = []
    while value > 127:
        made.append(128 + value % 128)
        value //= 128
    return bytes([*made, value])


def bytes_of(bits, runs):
    """Returns the bytes of the set with these runs of ranks."""
    after, made = 0, bytes.fromhex(HEADS[bits]) + number(len(runs))
    for first, last in runs:
        made += number(first - after) + number(last - first)
        after = last + 1
    return made


def runs_of(members):
    """Returns the runs of ascending ranks."""
    runs = []
    for member in members:
        if runs and runs[-1][1] == member - 1:
            runs[-1] = runs[-1][0], member
        else:
            runs.append((member, member))
    return runs


def fault(call, data, **options):
    """Returns the position and the reason that an exception names."""
    try:
        call(data, **options)
    except ValueError as error:
        words = str(error).split(" at position ")[1].split(": ")
        return int(words[0]), words[1]
    raise AssertionError(f"no fault: {data.hex(' ')}")


class Bytes(unittest.TestCase):
    def test_worked_rows(self):
        whole = "ff " * 18 + "03"
        for made, wanted in (
            (RangeSet(range(-1, 301)), "f5 52 53 42 01 40 01 ff ff ff ff ff ff ff ff 7f ad 02"),
            (~RangeSet(bits=128, signed=False), "f5 52 53 42 01 80 01 00 " + whole),
            (RangeSet(bits=128, signed=False), "f5 52 53 42 01 80 00"),
            (RangeSet([(3, 7), 10, (200, 255)], bits=32, signed=False), "f5 52 53 42 01 20 03 03 04 02 00 bd 01 37"),
            (~RangeSet(bits=128), "f5 52 53 42 01 80 01 00 " + whole),
            (DateSet([date.min]), "f5 52 53 42 01 20 01 00 00"),
            (CharSet("a"), "f5 52 53 42 01 20 01 61 00"),
            (AddressSet.parse("0.0.1.44"), "f5 52 53 42 01 20 01 ac 02 00"),
            (ElementSet([Step(-39)], element=STEPS), "f5 52 53 42 01 20 01 01 00"),
        ):
            self.assertEqual(made.to_bytes(), bytes.fromhex(wanted))
            self.assertEqual(type(made)._of(made.to_bytes(), **made._options()), made)

    def test_each_type_there_and_back(self):
        for kind in KINDS:
            low, top = kind.least, kind.greatest
            bits = kind.made().element.bits if kind in INTS else 128 if kind.name == "ipv6" else 32
            options = {name: value for name, value in kind.options.items() if name != "bits"}
            for runs in ((), [(low, low)], [(top, top)], [(low, top)], [(low, low), (top, top)], [(low + 2, top - 3)],
                         [(low + 3 * at, low + 3 * at + 1) for at in range(300)], [(low, top - 2), (top, top)]):
                wanted = bytes_of(bits, [(first - low, last - low) for first, last in runs])
                for of in kind.types:
                    made = kind.made(runs, of)
                    self.assertEqual(made.to_bytes(), wanted, kind.name)
                    back = of.from_bytes(wanted, **options)
                    self.assertEqual((back, type(back), back.element), (made, of, made.element))

    def test_what_is_not_in_the_bytes(self):
        made = RangeSet([(5, 9)], bits=32, signed=False)
        self.assertEqual(RangeSet.from_bytes(made.to_bytes()), RangeSet([(5 - 2**31, 9 - 2**31)], bits=32))
        self.assertEqual(FrozenRangeSet.from_bytes(made.to_bytes(), signed=False), made)
        self.assertEqual(AddressSet.from_bytes(made.to_bytes()).version, 4)
        self.assertEqual(AddressSet.from_bytes(RangeSet(bits=128).to_bytes()).version, 6)
        self.assertRaises(TypeError, ElementSet.from_bytes, made.to_bytes())

    def test_objects_with_bytes(self):
        made = RangeSet(range(1000))
        data = made.to_bytes()
        spread = bytes(itertools.chain.from_iterable((byte, 0) for byte in data))
        for given in (bytearray(data), memoryview(data), array("B", data), memoryview(spread)[::2], type("Own", (bytes,), {})(data)):
            self.assertEqual(RangeSet.from_bytes(given), made)
            self.assertEqual(RangeSet.from_bytes(data=given, signed=True), made)
        with tempfile.TemporaryFile() as file:
            file.write(data)
            file.flush()
            with mmap.mmap(file.fileno(), 0) as given:
                self.assertEqual(RangeSet.from_bytes(given), made)
        for other in ("text", 5, [1, 2], None, made):
            self.assertRaises(TypeError, RangeSet.from_bytes, other)

    def test_large_sets(self):
        chance = random.Random(1)
        for bits in HEADS:
            places = sorted(chance.sample(range(2**31), 40_000))
            made = RangeSet(places[:20_000:2] + [value + 2 ** (bits - 1) for value in places[::2]], bits=bits, signed=False)
            data = made.to_bytes()
            self.assertEqual(data, bytes_of(bits, [tuple(run) for run in made.runs()]))
            self.assertEqual(RangeSet.from_bytes(data, signed=False), made)
            self.assertEqual(fault(RangeSet.from_bytes, data[:-1]), (len(data) - 1, "CutShort"))
            self.assertEqual(fault(RangeSet.from_bytes, data + b"\0"), (len(data), "TooLong"))


class BadBytes(unittest.TestCase):
    def test_worked_rows(self):
        for data, position, reason in (
            ("", 0, "CutShort"),
            ("f5 52 53 0a", 3, "NotMagic"),
            ("f5 52 53 42 02", 4, "OtherVersion"),
            ("f5 52 53 42 01 08 00", 5, "OtherWidth"),
            ("f5 52 53 42 01 40", 6, "CutShort"),
            ("f5 52 53 42 01 20 80 00", 7, "NotShortest"),
            ("f5 52 53 42 01 80 02 03 04 00", 9, "Touching"),
            ("f5 52 53 42 01 20 01 ff ff ff ff 1f", 11, "PastGreatest"),
            ("f5 52 53 42 01 40 01 c8 01", 9, "CutShort"),
            ("f5 52 53 42 01 40 00 00", 7, "TooLong"),
        ):
            for of in (RangeSet, FrozenRangeSet):
                self.assertEqual(fault(of.from_bytes, bytes.fromhex(data)), (position, reason))

    def test_other_widths(self):
        narrow, wide = RangeSet([1], bits=32).to_bytes(), RangeSet([1], bits=128).to_bytes()
        for of, options in ((DateSet, {}), (CharSet, {}), (AddressSet, {"version": 4}), (ElementSet, {"element": STEPS})):
            self.assertEqual(fault(of.from_bytes, wide, **options), (5, "OtherWidth"))
        self.assertEqual(fault(AddressSet.from_bytes, narrow, version=6), (5, "OtherWidth"))

    def test_ranks_past_the_greatest(self):
        """Of each date, the third of the four bytes leaves no other number: all that begin so are as great or greater."""
        for of, top, options, positions in (
            (DateSet, date.max.toordinal() - 1, {}, (9, 11, 11)),
            (CharSet, 0x10FFFF, {}, (9, 10, 11)),
            (ElementSet, 1039, {"element": STEPS}, (8, 9, 10)),
        ):
            rows = [(top + 1, top + 1)], [(top, top + 1)], [(0, 0), (top + 1, top + 1)]
            for runs, position in zip(rows, positions):
                self.assertEqual(fault(of.from_bytes, bytes_of(32, runs), **options), (position, "PastGreatest"))
            data = bytes_of(32, [(0, 0), (top, top)])
            self.assertEqual(of.from_bytes(data, **options).count(), 2)
            self.assertEqual(fault(of.from_bytes, data + b"\0", **options), (len(data), "TooLong"))

    def test_positions_by_all_sets_of_an_element(self):
        """The position is the greatest number of first bytes that some set's bytes have too."""
        sets = [bytes_of(32, runs_of([rank for rank in range(12) if mask >> rank & 1])) for mask in range(2**12)]
        prefixes = {data[:length] for data in sets for length in range(len(data) + 1)}
        chance, seen = random.Random(2), set()
        for _ in range(20_000):
            data = bytearray(chance.choice(sets))
            for _ in range(chance.randint(1, 2)):
                at = chance.randrange(5 if chance.random() < 0.9 else 0, len(data) + 1)
                data[at : at + chance.randint(0, 1)] = bytes(chance.choice((0, 1, 2, 5, 6, 7, 11, 12, 127, 128, 129, 255)) for _ in range(chance.randint(0, 2)))
            data = bytes(data)
            if data in sets:
                continue
            wanted = max(length for length in range(len(data) + 1) if data[:length] in prefixes)
            position, reason = fault(ElementSet.from_bytes, data, element=SMALL)
            self.assertEqual(position, wanted, data.hex(" "))
            self.assertEqual(reason == "CutShort", position == len(data), data.hex(" "))
            seen.add(reason)
        self.assertEqual(seen, set(REASONS) - {"NotShortest"})  # since each number has one byte
        for data in chance.sample(sets, 500):
            self.assertEqual(ElementSet.from_bytes(data, element=SMALL).to_bytes(), data)


if __name__ == "__main__":
    unittest.main()
