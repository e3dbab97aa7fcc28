"""The types that annotations give, by mypy if it is there: for the package, for uses, and for what is refused."""

import importlib.util
import subprocess
import sys
import tempfile
import unittest
from pathlib import Path

import range_set

PACKAGE = Path(range_set.__file__).resolve().parent

USES = """
from array import array
from datetime import date
from ipaddress import IPv4Network, ip_address
from typing import AbstractSet, Collection, Container, Iterable, List, MutableSet, NamedTuple, Optional

from range_set import AddressSet, CharSet, DateSet, Element, ElementSet, FrozenDateSet, FrozenRangeSet, RangeSet, Run

def a(x: Collection[int]) -> None: ...
def b(x: Container[int]) -> None: ...
def c(x: AbstractSet[int]) -> None: ...
def d(x: MutableSet[int]) -> None: ...
def e(x: Iterable[int]) -> None: ...

class Named(RangeSet):
    pass

made, frozen = RangeSet([1, range(3), Run(1, 2), (-5, -1)], bits=128), FrozenRangeSet(range(3), signed=False)
a(made); b(made); c(made); d(made); e(made)
a(frozen); b(frozen); c(frozen); e(frozen)
joined: RangeSet = made | {2} | [3, (4, 5)] | range(7) | (8, 9)
from_right: RangeSet = [1, 2] | made
shared: RangeSet = made & frozenset([1])
left: FrozenRangeSet = frozen - made
named: Named = Named() | {1}
made |= {1}
made -= [(2, 3)]
same: bool = made == {1} and made == [1] and made == (1, 2)
within: bool = made <= {1} and made <= [1, 2]
first, last = Run(1, 2)
length: int = first + last + made[0] + made.pop() + made.count() + made.bits
part: RangeSet = made[1:5]
runs: List[Run[int]] = list(made.runs()) + list(reversed(made.gaps())) + list(made.ranges()) + list(made.runs_in(1, 5))
changed: bool = made.add(5) or made.add(1, 2) or made.add((1, 2)) or made.discard("x") or made.discard(range(3))
names = {frozen: "low"}
numbers: array[int] = made.to_array()
made.update(numbers, [1, (2, 3)], made)
found: Optional[Run[int]] = made.next_run(5) or made.first_gap(3, 1) or made.prev_gap()
text: str = str(RangeSet.parse("1, 5..=9", bits=32, signed=False))

written: bytes = made.to_bytes()
back: RangeSet = RangeSet.from_bytes(written, signed=False)
frozen_back: FrozenRangeSet = FrozenRangeSet.from_bytes(memoryview(written))
days_back: DateSet = DateSet.from_bytes(bytearray(written))

days = DateSet([date(2026, 1, 1), (date(2026, 2, 1), date(2026, 2, 28))])
day: Optional[date] = days.first()
for run in days.runs():
    year: int = run.first.year
calendar: DateSet = days | [date(2026, 1, 1)]
dates: MutableSet[date] = days
key = {FrozenDateSet(days): 1}
letters: AbstractSet[str] = CharSet("abc") - CharSet([("a", "b")])
hosts = AddressSet([IPv4Network("10.0.0.0/8"), ip_address("10.0.0.1")])
inside: bool = ip_address("10.0.0.1") in hosts

class Cents(NamedTuple):
    number: int

def rank(it: Cents) -> int:
    return it.number

cents: Element[Cents] = Element(rank, Cents, Cents(0), Cents(99))
prices: ElementSet[Cents] = ElementSet([Cents(5)], element=cents)
least: Optional[Cents] = prices.first()
"""
REFUSED = """
from datetime import date
from range_set import DateSet, FrozenRangeSet, RangeSet
RangeSet(["x"])  # 1
RangeSet().run_of("x")  # 2
DateSet([5])  # 3
FrozenRangeSet().add(5)  # 4
RangeSet(bits="64")  # 5
x: int = DateSet([date.min])[0]  # 6
RangeSet.from_bytes("x")  # 7
"""


@unittest.skipUnless(importlib.util.find_spec("mypy"), "needs mypy")
class Types(unittest.TestCase):
    @classmethod
    def setUpClass(cls):
        cls.folder = tempfile.TemporaryDirectory()
        cls.addClassCleanup(cls.folder.cleanup)

    def mypy(self, *arguments, text=""):
        """Returns the status of mypy, and what it says."""
        folder = self.folder.name
        file = Path(folder, "uses.py")
        file.write_text(text)
        words = [sys.executable, "-m", "mypy", "--strict", "--cache-dir", folder, *arguments, *([str(file)] * bool(text))]
        ran = subprocess.run(words, capture_output=True, text=True, cwd=PACKAGE.parent)
        return ran.returncode, ran.stdout + ran.stderr

    def test_the_package(self):
        status, said = self.mypy(str(PACKAGE))
        self.assertEqual(status, 0, said)

    def test_uses(self):
        status, said = self.mypy(text=USES)
        self.assertEqual(status, 0, said)

    def test_what_is_refused(self):
        status, said = self.mypy(text=REFUSED)
        lines = {int(line.split(":")[1]) for line in said.splitlines() if ": error:" in line}
        wanted = {at for at, line in enumerate(REFUSED.splitlines(), 1) if "  # " in line}
        self.assertEqual(wanted - lines, set(), said)


if __name__ == "__main__":
    unittest.main()
