"""The types of values: ints of each width, dates, addresses, characters, and those that users describe."""

from __future__ import annotations

import re
from datetime import date, datetime
from functools import lru_cache, partial
from ipaddress import IPv4Address, IPv4Network, IPv6Address, IPv6Network, ip_address, ip_network
from typing import Any, Callable, Iterator, NoReturn, Optional, SupportsIndex, Tuple, Type, TypeVar, Union

from . import _core

T = TypeVar("T")
E = TypeVar("E", bound="Element[Any]")
Ends = Callable[[object], Optional[Tuple[T, T]]]
Address = Union[IPv4Address, IPv6Address]

WIDTHS = 32, 64, 128
BLANKS = "[ \t\r\n]*"


class Element(_core.Element[T]):
    """A type whose values have an order and follow each other, such as dates.

    `rank(value)` returns the int of a value, and `value(int)` returns the value: the next greater
    value has the int one above. `rank` raises TypeError for an object of this type that a set must
    not have. The values of a set are those from `least` to `greatest`, of which there are at most
    2**128, and each is hashable.

    `ends(object)` returns the first and the last value of another object that stands for a range,
    or None. `text(value)` and `read(text)` are how `str` writes a value and `parse` reads it, and
    `token` is the regular expression of such a text.

        >>> class Cents(NamedTuple):
        ...     number: int
        >>> cents = Element(lambda it: it.number, Cents, Cents(0), Cents(99))
        >>> prices = ElementSet([(Cents(5), Cents(9))], element=cents)
        >>> Cents(7) in prices, prices.gap_of(Cents(10))
        (True, Run(first=Cents(number=10), last=Cents(number=99)))
    """

    least: T
    greatest: T

    def __new__(
        cls: Type[E],
        rank: Callable[[T], int],
        value: Callable[[int], T],
        least: T,
        greatest: T,
        *,
        ends: Optional[Ends[T]] = None,
        text: Callable[[T], str] = str,
        read: Optional[Callable[[str], T]] = None,
        token: str = "[^ \t\r\n,.]+",
    ) -> E:
        first, last = rank(least), rank(greatest)
        bits = next((bits for bits in WIDTHS if last - first < 2**bits), 0)
        if not bits:
            raise ValueError("an element has at most 2**128 values")
        made: E = super().__new__(cls, bits, first, last, type(least), rank, value, ends)
        made._arguments = rank, value, least, greatest
        made._options = {"ends": ends, "text": text, "read": read, "token": token}
        made.least, made.greatest, made.rank, made.value = least, greatest, rank, value
        made._text, made._read, made._token, made._ends = text, read, token, ends
        return made

    _arguments: Tuple[Any, ...]
    _options: Any
    rank: Callable[[Any], int]
    value: Callable[[int], Any]
    _text: Callable[[T], str]
    _read: Optional[Callable[[str], Any]]
    _token: str
    _ends: Any

    def is_run(self, values: object) -> bool:
        """Returns whether an object stands for a range of values, such as a network of addresses."""
        return self._ends is not None and self._ends(values) is not None

    def __eq__(self, other: object) -> bool:
        """Returns whether both elements have the same functions and bounds."""
        return isinstance(other, Element) and self._arguments == other._arguments

    def __hash__(self) -> int:
        return hash(self._arguments)

    def __repr__(self) -> str:
        return f"<Element {type(self.least).__name__} from {self.least!r} to {self.greatest!r}>"

    def __reduce__(self) -> Any:
        return partial(type(self), **self._options), self._arguments

    def _refuse(self, value: object, is_foreign: int) -> NoReturn:
        """Raises what a set says of a value that it cannot have."""
        if is_foreign:
            raise TypeError(f"a value of this set is a {type(self.least).__name__}, and not {shown(value)}")
        raise OverflowError(f"a value of this set is from {self.least!r} to {self.greatest!r}, and {shown(value)} is not")

    def runs_in_text(self, text: str) -> Iterator[Any]:
        """Yields each value, run and other item that a text lists, or raises ValueError."""
        if self._read is None:
            raise TypeError("the element of this set has no function that reads text")
        pattern, place = item_pattern(self._token), 0
        while text.strip(" \t\r\n"):
            found = pattern.match(text, place)
            if not found:
                raise ValueError(f"the text lists no value or range at position {place}: {text[place:place + 20]!r}")
            first, last, comma = found.groups()
            yield self._read(first) if last is None else (self._read(first), self._read(last))
            place = found.end()
            if not comma:
                return

    def text_of_runs(self, runs: Iterator[_core.Run[T]]) -> str:
        """Returns the text of some runs, such as `1..=5, 10..=20`."""
        text = self._text
        return ", ".join([f"{text(first)}..={text(last)}" for first, last in runs])


@lru_cache(maxsize=None)
def item_pattern(token: str) -> Any:
    """Returns the pattern of an item of a list, and of the comma after it or the end of the text."""
    return re.compile(f"{BLANKS}({token}){BLANKS}(?:\\.\\.={BLANKS}({token}){BLANKS})?(,|\\Z)")


def shown(value: object) -> str:
    """Returns a short text of a value, for messages."""
    if isinstance(value, int) and value.bit_length() > 256:
        return "an int of so many digits"
    text = repr(value)
    return text if len(text) < 80 else f"a {type(value).__name__}"


# ---- Ints.

# What to use for values of other types.
HINTS: Tuple[Tuple[Any, str], ...] = (
    (str, "parse() reads a set from text, and CharSet has characters"),
    (tuple, "a tuple is a run with two ends, such as (1, 5); write a list of values"),
    (list, "update() and the constructor take lists of values and runs"),
    (date, "DateSet has dates"),
    ((IPv4Address, IPv6Address, IPv4Network, IPv6Network), "AddressSet has addresses and networks"),
)


class Ints(Element[int]):
    """The ints of a width, with or without those below 0."""

    bits: int
    signed: bool

    def __new__(cls: Type[Ints], bits: int, signed: bool) -> Ints:
        first = -(2 ** (bits - 1)) if signed else 0
        last = first + 2**bits - 1
        made: Ints = _core.Element.__new__(cls, bits, first, last)
        made.bits, made.signed, made.least, made.greatest = bits, signed, first, last
        made.rank = made.value = int
        made._arguments, made._options = (bits, signed), {}
        made._text, made._read, made._token, made._ends = str, int, "[+-]?[0-9]+", None
        return made

    def __repr__(self) -> str:
        return f"<Ints of {self.bits} bits from {self.least} to {self.greatest}>"

    def _refuse(self, value: object, is_foreign: int) -> NoReturn:
        if is_foreign:
            hint = next((hint for kinds, hint in HINTS if isinstance(value, kinds)), None)
            raise TypeError(f"a value of this set is an int, and not {shown(value)}" + (f": {hint}" if hint else ""))
        number = int(value)  # type: ignore[call-overload]
        holds = f"a set of {self.bits} bits holds {self.least} to {self.greatest}"
        raise OverflowError(f"{shown(number)} does not fit: {holds}; {self._advice(number)}")

    def _advice(self, number: int) -> str:
        """Returns which arguments a set that holds a number needs."""
        words = []
        for bits in WIDTHS:
            for signed in (True, False):
                other = ints(bits, signed)
                if bits >= self.bits and other.least <= number <= other.greatest:
                    named = [f"bits={bits}"] * (bits != 64) + ["signed=False"] * (not signed)
                    words.append(", ".join(named) or "bits=64")
        return "pass " + " or ".join(words[:2]) if words else "no set of ints holds it"


@lru_cache(maxsize=None)
def made_ints(bits: int, signed: bool) -> Ints:
    return Ints(bits, signed)


def ints(bits: SupportsIndex, signed: bool) -> Ints:
    """Returns the ints of a width, or raises ValueError if there is no set of it."""
    if bits not in WIDTHS:
        raise ValueError(f"bits is 32, 64 or 128, and not {bits!r}")
    return made_ints(int(bits), bool(signed))


# ---- Dates.


def day_of(value: date) -> int:
    if isinstance(value, datetime):
        raise TypeError("a date has no time")
    return value.toordinal()


DAYS: Element[date] = Element(
    day_of,
    date.fromordinal,
    date.min,
    date.max,
    text=date.isoformat,
    read=date.fromisoformat,
    token="[0-9]{4}-[0-9]{2}-[0-9]{2}",
)

# ---- Characters. Each code point is one, with those of surrogates, since a str may have them.


def character_in(text: str) -> str:
    """Returns the character that a text writes as Python does, such as 'a' or '\\n'."""
    from ast import literal_eval

    value: str = literal_eval(text)
    if len(value) != 1:
        raise ValueError(f"{text} is no single character")
    return value


CHARACTERS: Element[str] = Element(
    ord,
    chr,
    chr(0),
    chr(0x10FFFF),
    text=ascii,
    read=character_in,
    token=r"'(?:[^'\\]|\\.[^']*)'|\"'\"",
)

# ---- Addresses.


def ends_of_network(network: object) -> Optional[Tuple[Any, Any]]:
    """Returns the first and the last address of a network."""
    if isinstance(network, (IPv4Network, IPv6Network)):
        return network.network_address, network.broadcast_address
    return None


def address_in(text: str) -> Any:
    """Returns the address or the network that a text writes."""
    return ip_network(text) if "/" in text else ip_address(text)


class Addresses(Element[Any]):
    """The addresses of one family, without those with a zone."""

    version: int

    def _refuse(self, value: object, is_foreign: int) -> NoReturn:
        hint = ""
        if isinstance(value, (IPv4Address, IPv6Address, IPv4Network, IPv6Network)) and value.version != self.version:
            hint = f": make the set with version={value.version}"
        elif isinstance(value, str):
            hint = ": ipaddress.ip_address() and AddressSet.parse() read text"
        raise TypeError(f"a value of this set is an IPv{self.version} address, and not {shown(value)}{hint}")


def number_of_address(address: Address) -> int:
    if getattr(address, "scope_id", None) is not None:
        raise TypeError("an address of a set has no zone")
    return int(address)


def addresses(kind: Callable[[int], Any], version: int) -> Addresses:
    least, greatest = kind(0), kind(2 ** (32 if version == 4 else 128) - 1)
    token = r"[0-9A-Fa-f:]+(?:\.[0-9]+){0,3}(?:/[0-9]+)?"
    made = Addresses(number_of_address, kind, least, greatest, ends=ends_of_network, read=address_in, token=token)
    made.version = version
    return made


FAMILIES = {4: addresses(IPv4Address, 4), 6: addresses(IPv6Address, 6)}
