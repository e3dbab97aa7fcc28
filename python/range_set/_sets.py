"""The public types of sets: those that change, and those that are hashable."""

from __future__ import annotations

from collections import abc
from datetime import date
from operator import index
from typing import TYPE_CHECKING, Any, Dict, Generic, Iterable, MutableSet, Optional, SupportsIndex, Tuple, Type, TypeVar, Union

from . import _core
from ._algebra import DIFFERENCE, INTERSECTION, SYMMETRIC_DIFFERENCE, UNION, Algebra
from ._core import Run
from ._elements import CHARACTERS, DAYS, FAMILIES, WIDTHS, Address, Element, Ints, ints
from ._reads import I, Reads, T, V, bits_of, plain_bytes

# Sets with fewer members than this have the hash of a frozenset.
MANY = 2**32

Self = TypeVar("Self", bound="Changes[Any, Any, Any]")
Frozen = TypeVar("Frozen", bound="Freezes[Any, Any, Any]")

# Type checkers see sets, and the interpreter only sees their registration.
if TYPE_CHECKING:
    from ipaddress import IPv4Network, IPv6Network

    from _typeshed import ReadableBuffer as Buffer

    class ChangingBase(Algebra[T, V, I], _core.Changing[T, V], Generic[T, V, I]): ...

    Network = Union[IPv4Network, IPv6Network]
else:

    class ChangingBase(Algebra, _core.Changing):
        __slots__ = ()


class Changes(ChangingBase[T, V, I]):
    """The calls that change a set."""

    __slots__ = ()
    __hash__ = None  # type: ignore[assignment]

    def remove(self, values: Any, last: Any = None) -> None:
        """Removes some values, or raises KeyError if any of them is not a member.

        It takes the same arguments as `discard`.
        """
        wanted = values if last is None else Run(values, last)
        if wanted not in self:
            raise KeyError(wanted)
        self.discard(wanted)

    def pop(self) -> T:
        """Removes and returns the least member. Raises KeyError if the set is empty."""
        while True:
            value = self.first()
            if value is None:
                raise KeyError("pop from an empty set")
            if self.discard(value):  # unless another thread has removed it
                return value

    def clear(self) -> None:
        """Removes all members."""
        self._clear()

    # ---- Set algebra in place.

    def _replace(self: Self, how: int, others: Iterable[Any], is_adding: bool) -> None:
        """Changes this set by others, or leaves it unchanged if one of them has what no set can have."""
        given = [self._other(values, is_adding) for values in others]
        for other in given:
            self._change(how, other)

    def update(self, *others: Iterable[I]) -> None:
        """Adds all members of the others."""
        self._replace(UNION, others, True)

    def intersection_update(self, *others: Iterable[Any]) -> None:
        """Keeps only what is in each of the others."""
        self._replace(INTERSECTION, others, False)

    def difference_update(self, *others: Iterable[Any]) -> None:
        """Removes all members of the others."""
        self._replace(DIFFERENCE, others, False)

    def symmetric_difference_update(self, *others: Iterable[I]) -> None:
        """Keeps the values that are in an odd number of the sets: this one and the others."""
        self._replace(SYMMETRIC_DIFFERENCE, others, True)

    def _operated(self: Self, how: int, other: object, is_adding: bool) -> Self:
        if not self._takes(other):
            return NotImplemented
        self._change(how, self._other(other, is_adding, True))
        return self

    def __ior__(self: Self, other: Any) -> Self:
        return self._operated(UNION, other, True)

    def __iand__(self: Self, other: Any) -> Self:
        return self._operated(INTERSECTION, other, False)

    def __isub__(self: Self, other: Any) -> Self:
        return self._operated(DIFFERENCE, other, False)

    def __ixor__(self: Self, other: Any) -> Self:
        return self._operated(SYMMETRIC_DIFFERENCE, other, True)


class Freezes(Algebra[T, V, I]):
    """A set that never changes, so it is hashable.

    It has the hash of a `frozenset` with the same members. So the first `hash` takes a step for each
    member. A set of 2**32 or more members is hashed by its runs instead.
    """

    __slots__ = ()

    @classmethod
    def _frozen(cls: Type[Frozen], values: Any, element: Element[Any]) -> Frozen:
        """Returns a set of some values, which is the same object if they are such a set already."""
        if type(values) is cls and values.element == element:
            return values
        made = cls._new(element)
        made._start(values, element)
        return made

    def __hash__(self) -> int:
        return self._hash_of_members() if self.count() < MANY else hash(tuple(self.runs()))

    def copy(self: Frozen) -> Frozen:
        """Returns the set itself, which never changes."""
        return self


# ---- Ints.

Int = SupportsIndex
IntItem = Union[SupportsIndex, range, Run[int], Tuple[SupportsIndex, SupportsIndex]]


class IntOptions(Reads[int, Int, IntItem]):
    """Which ints a set can have."""

    __slots__ = ()

    @classmethod
    def _element_for(  # type: ignore[override]
        cls, values: object, *, bits: Optional[SupportsIndex] = None, signed: Optional[bool] = None
    ) -> Element[Any]:
        of = values.element if isinstance(values, Reads) and isinstance(values.element, Ints) else None
        if bits is None and signed is None and of is not None:
            return of
        return ints(64 if bits is None else bits, True if signed is None else signed)

    def _options(self) -> Dict[str, Any]:
        options: Dict[str, Any] = {} if self.bits == 64 else {"bits": self.bits}
        return options if self.signed else {**options, "signed": False}

    @property
    def bits(self) -> int:
        """The width of the ints: 32, 64 or 128."""
        width: int = self.element.bits
        return width

    @property
    def signed(self) -> bool:
        """Whether the ints may be below 0."""
        is_signed: bool = self.element.signed
        return is_signed


class RangeSet(IntOptions, Changes[int, Int, IntItem]):
    """A set of ints, kept as sorted runs that never touch.

    It has the operators and methods of Python's `set`, and takes runs wherever it takes values:

        >>> RangeSet([5, range(10, 21), (30, 39), Run(-9, -5)])
        RangeSet([range(-9, -4), range(5, 6), range(10, 21), range(30, 40)])
        >>> RangeSet(range(1, 6)) | {9}
        RangeSet([range(1, 6), range(9, 10)])

    A range is half-open. A tuple of two and a `Run` have both ends. An array of numpy has values, or
    runs if it has two columns.

    The ints are from -2**63 to 2**63 - 1. `bits` is 32 or 128 for others, and `signed=False` gives
    those from 0 to 2**bits - 1. `RangeSet(other)` copies a range set, with its `bits` and `signed`
    unless you pass one of them.

    A set takes every value that `operator.index` takes, so True is 1, and 1.0 raises TypeError. A
    value that does not fit raises OverflowError. Calls that add nothing, such as `in`, `discard` and
    `isdisjoint`, take other values too, as those of a Python set do. If an allocation fails, a call
    raises MemoryError. A call that fails leaves the set unchanged, except that a call with several
    sets may have used the first of them if an allocation fails.

    Threads may share a set, since the interpreter's lock is kept during each call. After `os.fork`
    in a process with threads, the child must not use sets.
    """

    __slots__ = ()

    def __init__(
        self, values: Iterable[IntItem] = (), *, bits: Optional[SupportsIndex] = None, signed: Optional[bool] = None
    ) -> None:
        self._start(values, self._element_for(values, bits=bits, signed=signed))

    @classmethod
    def parse(
        cls: Type[Self], text: str, *, bits: Optional[SupportsIndex] = None, signed: Optional[bool] = None
    ) -> Self:
        """Returns the set of the values and ranges that text lists, such as `1..=5, 10..=20`.

        The ranges may come in any order and may overlap. A single value such as `5` means `5..=5`. A
        range whose start is past its end has no members. Spaces, tabs and ends of lines are allowed
        around each value. Raises ValueError for any other text, and for a value that does not fit.

            >>> RangeSet.parse("22, 80, -5..=-3")
            RangeSet([range(-5, -2), range(22, 23), range(80, 81)])
        """
        return cls._parsed(text, bits=bits, signed=signed)

    @classmethod
    def from_bytes(cls: Type[Self], data: Buffer, *, signed: bool = True) -> Self:
        """Returns the set that `to_bytes` wrote as these bytes, which are of any bytes-like object.

        The bytes say how many bits the ints have, but not whether they may be below 0: pass the
        `signed` of the set that was written. Raises ValueError with the position of the first wrong
        byte and the reason, as docs/FORMAT.md lists them.

            >>> data = RangeSet([range(3), 9], bits=32).to_bytes()
            >>> RangeSet.from_bytes(data)
            RangeSet([range(0, 3), range(9, 10)], bits=32)
            >>> RangeSet.from_bytes(data[:-1])
            Traceback (most recent call last):
                ...
            ValueError: not the bytes of a set, at position 14: CutShort: the bytes end before the last run does
        """
        kept = plain_bytes(data)
        return cls._of(kept, bits=bits_of(kept, WIDTHS), signed=signed)


class FrozenRangeSet(IntOptions, Freezes[int, Int, IntItem]):
    """A `RangeSet` that never changes, so it is hashable. `FrozenRangeSet(s)` freezes a set.

        >>> names = {FrozenRangeSet(range(9, 18)): "open"}
        >>> names[FrozenRangeSet([(9, 17)])]
        'open'
        >>> hash(FrozenRangeSet([1, 2])) == hash(frozenset([1, 2]))
        True
    """

    __slots__ = ()

    def __new__(
        cls: Type[Frozen],
        values: Iterable[IntItem] = (),
        *,
        bits: Optional[SupportsIndex] = None,
        signed: Optional[bool] = None,
    ) -> Frozen:
        return cls._frozen(values, cls._element_for(values, bits=bits, signed=signed))

    @classmethod
    def parse(
        cls: Type[Frozen], text: str, *, bits: Optional[SupportsIndex] = None, signed: Optional[bool] = None
    ) -> Frozen:
        """Returns the set that a text lists, as `RangeSet.parse` does."""
        return cls._parsed(text, bits=bits, signed=signed)

    @classmethod
    def from_bytes(cls: Type[Frozen], data: Buffer, *, signed: bool = True) -> Frozen:
        """Returns the set that has these bytes, as `RangeSet.from_bytes` does."""
        kept = plain_bytes(data)
        return cls._of(kept, bits=bits_of(kept, WIDTHS), signed=signed)


# ---- Values of other types.


class ElementOptions(Reads[T, V, I]):
    """The element of a set, which its class may fix."""

    __slots__ = ()
    _element: Optional[Element[Any]] = None

    @classmethod
    def _element_for(cls, values: object, *, element: Optional[Element[Any]] = None) -> Element[Any]:  # type: ignore[override]
        given = element or cls._element or (values.element if isinstance(values, Reads) else None)
        if given is None:
            raise TypeError(f"{cls.__name__} needs an element, such as {cls.__name__}(values, element=Element(..))")
        return given

    def _options(self) -> Dict[str, Any]:
        return {} if self._element is not None else {"element": self.element}


Item = Union[T, Run[T], Tuple[T, T]]


class ElementSet(ElementOptions[T, T, Item[T]], Changes[T, T, Item[T]]):
    """A set of values of any type that an `Element` describes, with the calls of a `RangeSet`.

        >>> class Level(Enum):
        ...     LOW, MIDDLE, HIGH = 1, 2, 3
        >>> levels = Element(lambda it: it.value, Level, Level.LOW, Level.HIGH)
        >>> alarms = ElementSet([Level.MIDDLE, Level.HIGH], element=levels)
        >>> Level.LOW in alarms, list(~alarms)
        (False, [<Level.LOW: 1>])
    """

    __slots__ = ()

    def __init__(self, values: Iterable[Item[T]] = (), *, element: Optional[Element[T]] = None) -> None:
        self._start(values, self._element_for(values, element=element))

    @classmethod
    def parse(cls: Type[Self], text: str, *, element: Optional[Element[Any]] = None) -> Self:
        """Returns the set that a text lists, if the element has a function that reads values."""
        return cls._parsed(text, element=element)

    @classmethod
    def from_bytes(cls: Type[Self], data: Buffer, *, element: Optional[Element[Any]] = None) -> Self:
        """Returns the set that `to_bytes` wrote as these bytes, which are of any bytes-like object.

        The bytes have the ranks of the members, and do not say of which values: pass the element of
        the set that was written. Raises ValueError with the position of the first wrong byte and the
        reason, as docs/FORMAT.md lists them.

            >>> data = DateSet([(date(1, 1, 3), date(1, 1, 9))]).to_bytes()
            >>> data.hex(" "), str(DateSet.from_bytes(data))
            ('f5 52 53 42 01 20 01 02 06', '0001-01-03..=0001-01-09')
        """
        return cls._of(plain_bytes(data), element=element)


class FrozenElementSet(ElementOptions[T, T, Item[T]], Freezes[T, T, Item[T]]):
    """An `ElementSet` that never changes, so it is hashable."""

    __slots__ = ()

    def __new__(
        cls: Type[Frozen], values: Iterable[Item[T]] = (), *, element: Optional[Element[T]] = None
    ) -> Frozen:
        return cls._frozen(values, cls._element_for(values, element=element))

    @classmethod
    def parse(cls: Type[Frozen], text: str, *, element: Optional[Element[Any]] = None) -> Frozen:
        """Returns the set that a text lists, if the element has a function that reads values."""
        return cls._parsed(text, element=element)

    @classmethod
    def from_bytes(cls: Type[Frozen], data: Buffer, *, element: Optional[Element[Any]] = None) -> Frozen:
        """Returns the set that has these bytes, as `ElementSet.from_bytes` does."""
        return cls._of(plain_bytes(data), element=element)


class DateSet(ElementSet[date]):
    """A set of days, with the calls of a `RangeSet`. A `datetime` is no day.

        >>> holidays = DateSet([date(2026, 1, 1), (date(2026, 12, 24), date(2026, 12, 26))])
        >>> date(2026, 12, 25) in holidays, len(holidays)
        (True, 4)
        >>> str(holidays)
        '2026-01-01..=2026-01-01, 2026-12-24..=2026-12-26'
    """

    __slots__ = ()
    _element = DAYS

    def __init__(self, values: Iterable[Item[date]] = ()) -> None:
        super().__init__(values)


class FrozenDateSet(FrozenElementSet[date]):
    """A `DateSet` that never changes, so it is hashable."""

    __slots__ = ()
    _element = DAYS

    def __new__(cls: Type[Frozen], values: Iterable[Item[date]] = ()) -> Frozen:
        return cls._frozen(values, DAYS)


class CharSet(ElementSet[str]):
    """A set of characters, with the calls of a `RangeSet`: of all code points, also of surrogates.

        >>> letters = CharSet([("a", "z"), ("A", "Z")])
        >>> "q" in letters, len(letters)
        (True, 52)
        >>> CharSet("hello")
        CharSet([('e', 'e'), ('h', 'h'), ('l', 'l'), ('o', 'o')])
    """

    __slots__ = ()
    _element = CHARACTERS

    def __init__(self, values: Iterable[Item[str]] = ()) -> None:
        super().__init__(values)


class FrozenCharSet(FrozenElementSet[str]):
    """A `CharSet` that never changes, so it is hashable."""

    __slots__ = ()
    _element = CHARACTERS

    def __new__(cls: Type[Frozen], values: Iterable[Item[str]] = ()) -> Frozen:
        return cls._frozen(values, CHARACTERS)


# ---- Addresses.

AddressItem = Union[Address, "Network", Run[Any], Tuple[Address, Address]]


class AddressOptions(Reads[Any, Any, Any]):
    """Which family the addresses of a set have."""

    __slots__ = ()

    @classmethod
    def _element_for(cls, values: Any, *, version: Optional[SupportsIndex] = None) -> Element[Any]:  # type: ignore[override]
        if isinstance(values, Reads) and version is None and values.element in FAMILIES.values():
            return values.element  # type: ignore[no-any-return]
        if version is None:
            version = version_of(values)
        if version not in FAMILIES:
            raise ValueError(f"version is 4 or 6, and not {version!r}")
        return FAMILIES[index(version)]

    def _options(self) -> Dict[str, Any]:
        return {} if self.version == 4 else {"version": 6}

    @property
    def version(self) -> int:
        """The family of the addresses: 4 or 6."""
        family: int = self.element.version
        return family


def version_of(values: Any) -> int:
    """Returns the family of the first of some addresses, networks and runs, or 4 if there is none."""
    first = next(iter(values), None) if isinstance(values, (list, set, frozenset)) else values
    first = next(iter(first), None) if isinstance(first, (tuple, Run)) else first
    return getattr(first, "version", 4)


def family_of(data: bytes) -> int:
    """Returns the family of a set with these bytes, or 4 if they are no set."""
    return 6 if bits_of(data, [128]) else 4


def listed(values: Any) -> Any:
    """Returns values that may be read twice: a list of them if they are an iterator."""
    is_kept = isinstance(values, (Reads, list, tuple, Run, set, frozenset)) or hasattr(values, "network_address")
    return values if is_kept else list(values)


class AddressSet(AddressOptions, Changes[Any, Any, AddressItem]):
    """A set of IP addresses of one family, with the calls of a `RangeSet`. It takes networks too.

        >>> private = AddressSet([ip_network("10.0.0.0/8"), ip_network("192.168.0.0/16")])
        >>> ip_address("10.20.30.40") in private, ip_network("192.168.5.0/24") in private
        (True, True)
        >>> str(AddressSet.parse("10.0.0.0/30") - AddressSet([ip_address("10.0.0.2")]))
        '10.0.0.0..=10.0.0.1, 10.0.0.3..=10.0.0.3'

    The family is that of the first item of a list or a set, unless `version` says it; otherwise 4.
    """

    __slots__ = ()

    def __init__(self, values: Iterable[AddressItem] = (), *, version: Optional[int] = None) -> None:
        values = listed(values)
        self._start(values, self._element_for(values, version=version))

    @classmethod
    def parse(cls: Type[Self], text: str, *, version: Optional[int] = None) -> Self:
        """Returns the set of the addresses, networks and ranges that text lists.

            >>> str(AddressSet.parse("::1, fe80::/126"))
            '::1..=::1, fe80::..=fe80::3'
        """
        return cls._parsed(text, version=version)

    @classmethod
    def from_bytes(cls: Type[Self], data: Buffer, *, version: Optional[int] = None) -> Self:
        """Returns the set that `to_bytes` wrote as these bytes, which are of any bytes-like object.

        Ranks have 32 bits in family 4, and 128 in family 6. Raises ValueError with the position of
        the first wrong byte and the reason, as docs/FORMAT.md lists them.

            >>> data = AddressSet.parse("::1..=::5").to_bytes()
            >>> data.hex(" "), str(AddressSet.from_bytes(data))
            ('f5 52 53 42 01 80 01 01 04', '::1..=::5')
        """
        kept = plain_bytes(data)
        return cls._of(kept, version=family_of(kept) if version is None else version)


class FrozenAddressSet(AddressOptions, Freezes[Any, Any, AddressItem]):
    """An `AddressSet` that never changes, so it is hashable."""

    __slots__ = ()

    def __new__(cls: Type[Frozen], values: Iterable[AddressItem] = (), *, version: Optional[int] = None) -> Frozen:
        values = listed(values)
        return cls._frozen(values, cls._element_for(values, version=version))

    @classmethod
    def parse(cls: Type[Frozen], text: str, *, version: Optional[int] = None) -> Frozen:
        """Returns the set of the addresses, networks and ranges that text lists."""
        return cls._parsed(text, version=version)

    @classmethod
    def from_bytes(cls: Type[Frozen], data: Buffer, *, version: Optional[int] = None) -> Frozen:
        """Returns the set that has these bytes, as `AddressSet.from_bytes` does."""
        kept = plain_bytes(data)
        return cls._of(kept, version=family_of(kept) if version is None else version)


abc.MutableSet.register(Changes)
abc.Set.register(Freezes)
