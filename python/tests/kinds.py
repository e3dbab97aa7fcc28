"""The types of sets that the tests go through: how to make one, and which value a number stands for."""

from datetime import date
from functools import total_ordering
from ipaddress import IPv4Address, IPv6Address
from typing import Any, Callable, Dict, List, NamedTuple

from range_set import (
    AddressSet,
    CharSet,
    DateSet,
    Element,
    ElementSet,
    FrozenAddressSet,
    FrozenCharSet,
    FrozenDateSet,
    FrozenElementSet,
    FrozenRangeSet,
    RangeSet,
)


@total_ordering
class Step:
    """A value of a user's own type."""

    def __init__(self, number: int) -> None:
        self.number = number

    def __eq__(self, other: object) -> bool:
        return isinstance(other, Step) and self.number == other.number

    def __lt__(self, other: "Step") -> bool:
        return self.number < other.number

    def __hash__(self) -> int:
        return hash(("step", self.number))

    def __repr__(self) -> str:
        return f"Step({self.number})"


def number_of_step(step: Step) -> int:
    return step.number


def read_step(text: str) -> Step:
    return Step(int(text))


def text_of_step(step: Step) -> str:
    return str(step.number)


STEPS = Element(number_of_step, Step, Step(-40), Step(999), text=text_of_step, read=read_step, token="-?[0-9]+")


class Kind(NamedTuple):
    """A type of sets with its options, and its values as ints."""

    name: str
    changing: Any
    frozen: Any
    options: Dict[str, Any]
    value: Callable[[int], Any]
    number: Callable[[Any], int]
    least: int
    greatest: int

    @property
    def types(self) -> List[Any]:
        return [self.changing, self.frozen]

    def made(self, numbers: Any = (), type: Any = None) -> Any:
        """Returns a set of the values of some numbers and pairs of numbers."""
        items = [tuple(map(self.value, it)) if isinstance(it, tuple) else self.value(it) for it in numbers]
        return (type or self.changing)(items, **self.options)


def same(value: int) -> int:
    return value


def int_kind(bits: int, signed: bool) -> Kind:
    least = -(2 ** (bits - 1)) if signed else 0
    name = f"{'int' if signed else 'uint'}{bits}"
    return Kind(name, RangeSet, FrozenRangeSet, {"bits": bits, "signed": signed}, same, same, least, least + 2**bits - 1)


INTS = [int_kind(bits, signed) for bits in (32, 64, 128) for signed in (False, True)]
KINDS = [
    *INTS,
    Kind("date", DateSet, FrozenDateSet, {}, date.fromordinal, date.toordinal, 1, date.max.toordinal()),
    Kind("char", CharSet, FrozenCharSet, {}, chr, ord, 0, 0x10FFFF),
    Kind("ipv4", AddressSet, FrozenAddressSet, {"version": 4}, IPv4Address, int, 0, 2**32 - 1),
    Kind("ipv6", AddressSet, FrozenAddressSet, {"version": 6}, IPv6Address, int, 0, 2**128 - 1),
    Kind("step", ElementSet, FrozenElementSet, {"element": STEPS}, Step, number_of_step, -40, 999),
]
