"""Short programs as new users write them, with what they print."""

import contextlib
import io
import unittest

from range_set import RangeSet

try:
    import numpy
except ImportError:
    numpy = None

PORTS = '''
from range_set import RangeSet
ports = RangeSet([22, 80, (8000, 8100)])
ports.add(443)
print(8080 in ports, ports.next_run(81), ports.ranges())
for first, last in ports.runs():
    print(first, last)
print(ports.first_gap(1000, start=80))
'''
SIGNED = '''
from range_set import RangeSet
temperatures = RangeSet([-5, 10])
temperatures |= range(-3, 0)
print(temperatures, -4 in temperatures, min(temperatures), sum(temperatures))
print(RangeSet([(-(2**100), 2**100)], bits=128).count())
'''
ADDRESSES = '''
from ipaddress import ip_address, ip_network
from range_set import AddressSet
allowed = AddressSet([ip_network("10.0.0.0/8"), ip_network("192.168.0.0/16")])
allowed -= [ip_network("10.1.0.0/16"), (ip_address("10.2.0.0"), ip_address("10.2.0.9"))]
print(ip_address("10.1.2.3") in allowed, ip_address("10.2.0.10") in allowed, allowed)
print(AddressSet([ip_network("2001:db8::/64")]).count())
'''
JSON = '''
import json
from range_set import RangeSet
runs = RangeSet(json.loads("[[1, 5], [10, 20]]"))
runs.add(6)
print(json.dumps([tuple(run) for run in runs.runs()]), RangeSet([(1, 6), (10, 20)]) == runs)
'''
SETS = '''
from range_set import FrozenRangeSet, RangeSet
seen = RangeSet(range(3))
print(seen == {0, 1, 2}, seen | {7}, {1} | seen, seen - [1], [1, 9] - seen, {1} <= seen, seen ^ {2, 3})
print({frozenset([1, 2]): "both"}[FrozenRangeSet([1, 2])], sorted(seen & {2, "x"}))
'''
ROWS = '''
from typing import NamedTuple
from range_set import RangeSet
class Row(NamedTuple):
    start: int
    end: int
table = [Row(1, 5), Row(4, 9), Row(20, 29)]
busy = RangeSet(table)
print(busy, RangeSet(row.start for row in table), [run.size for run in busy.runs()])
'''
DAYS = '''
from datetime import date, timedelta
from range_set import DateSet
leave = DateSet([(date(2026, 12, 24), date(2026, 12, 31))])
leave.discard(date(2026, 12, 28))
work = DateSet((date(2026, 12, 21), date(2026, 12, 31))) - leave
print(len(leave), work, leave.next_gap(date(2026, 12, 25)).first + timedelta(1))
'''
ALLOCATOR = '''
from range_set import CharSet, RangeSet
free = ~RangeSet([(0, 1023), 2000], bits=32, signed=False)
block = free.run_of(free.first())
taken = free.next_run().first
free.discard(taken, taken + 99)
print(block, free.first(), free.rank(3000), free[0])
print("q" in CharSet([("a", "z")]), CharSet("hello").union("abc"))
'''
PROGRAMS = (
    (PORTS, "True Run(first=443, last=443) Runs([Run(first=22, last=22), Run(first=80, last=80), Run(first=443, last=443), "
            "Run(first=8000, last=8100)])\n22 22\n80 80\n443 443\n8000 8100\nRun(first=444, last=7999)\n"),
    (SIGNED, "-5..=-5, -3..=-1, 10..=10 False -5 -1\n2535301200456458802993406410753\n"),
    (ADDRESSES, "False True 10.0.0.0..=10.0.255.255, 10.2.0.10..=10.255.255.255, 192.168.0.0..=192.168.255.255\n18446744073709551616\n"),
    (JSON, "[[1, 6], [10, 20]] True\n"),
    (SETS, "True 0..=2, 7..=7 0..=2 0..=0, 2..=2 9..=9 True 0..=1, 3..=3\nboth [2]\n"),
    (ROWS, "1..=9, 20..=29 1..=1, 4..=4, 20..=20 [9, 10]\n"),
    (DAYS, "7 2026-12-21..=2026-12-23, 2026-12-28..=2026-12-28 2026-12-29\n"),
    (ALLOCATOR, "Run(first=1024, last=1999) 1124 1875 1124\nTrue 'a'..='c', 'e'..='e', 'h'..='h', 'l'..='l', 'o'..='o'\n"),
)


class Programs(unittest.TestCase):
    def test_each(self):
        for text, wanted in PROGRAMS:
            printed = io.StringIO()
            with contextlib.redirect_stdout(printed):
                exec(compile(text, "program", "exec"), {"__name__": "program"})
            self.assertEqual(printed.getvalue(), wanted)


@unittest.skipUnless(numpy, "needs numpy")
class Tables(unittest.TestCase):
    """Columns of a table, as pandas gives them."""

    class Column:
        """An object of another library, which gives an array but has no buffer."""

        def __init__(self, values):
            self.values = numpy.array(values)

        def __array__(self, *arguments, **options):
            return self.values

        def __iter__(self):
            raise AssertionError("a loop over the values")

    def test_columns(self):
        self.assertEqual(RangeSet(self.Column([5, 1, 2])), {1, 2, 5})
        self.assertEqual(RangeSet(self.Column([[1, 5], [7, 9]])), [(1, 5), (7, 9)])
        self.assertEqual(RangeSet([3]).union(self.Column([5])), {3, 5})


class Pictures(unittest.TestCase):
    def test_the_ends_are_written(self):
        picture = RangeSet([(1, 5), 9, (100, 200)])._repr_svg_()
        for text in (">1..=5<", ">9<", ">100..=200<", "3 runs, 107 members"):
            self.assertIn(text, picture)
        self.assertEqual(picture.count("<rect"), 3)

    def test_many_runs_make_few_boxes(self):
        picture = RangeSet([(10 * at, 10 * at + 1) for at in range(50_000)])._repr_svg_()
        self.assertLess(picture.count("<rect"), 1300)
        self.assertIn(">0<", picture)
        self.assertIn(">499991<", picture)

    def test_each_type_of_values(self):
        from xml.dom.minidom import parseString

        from kinds import KINDS

        for kind in KINDS:
            for numbers in ((), [kind.least], [(kind.least, kind.greatest)], [kind.least, kind.greatest],
                            [(kind.least + 3 * at, kind.least + 3 * at + 1) for at in range(50)]):
                made = kind.made(numbers)
                picture = made._repr_svg_()
                parseString(picture)
                places = [part.split('"')[1] for part in picture.split("<rect")[1:] for part in [part.partition("x=")[2]]]
                self.assertTrue(all(20 <= float(place) <= 620 for place in places), (kind.name, places))


if __name__ == "__main__":
    unittest.main()
