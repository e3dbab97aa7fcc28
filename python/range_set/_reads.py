"""The part of all range sets that only reads them: places, walks, arrays, text and copies."""

from __future__ import annotations

from array import array
from collections import abc
from operator import index
from typing import (
    TYPE_CHECKING,
    Any,
    Dict,
    Generic,
    Iterable,
    Iterator,
    List,
    Optional,
    SupportsIndex,
    Tuple,
    Type,
    TypeVar,
    Union,
    overload,
)

from . import _core
from ._arrays import array_of, numbers_of
from ._core import Run
from ._elements import Element, Ints
from ._picture import picture
from ._walks import Gaps, Runs

T = TypeVar("T")
V = TypeVar("V")  # what a call on one value takes
I = TypeVar("I")  # what an item of an iterable is
Self = TypeVar("Self", bound="Reads[Any, Any, Any]")

# Type checkers see sets, and the interpreter only sees their registration.
if TYPE_CHECKING:

    class Base(_core.Set[T, V], Generic[T, V, I]): ...

else:
    Base = _core.Set


def checked_pair(values: Tuple[Any, ...]) -> List[Any]:
    """Returns a list of the run that a tuple is. The empty tuple is none. Others raise TypeError.

    See docs/DECISIONS.md, tuple-is-a-run.
    """
    if len(values) not in (0, 2):
        raise TypeError("a tuple is a run with two ends, such as (1, 5): write a list of values and runs")
    return [values] if values else []


def plain_bytes(data: Any) -> bytes:
    """Returns the bytes of an object that has some, such as a bytearray. Others raise TypeError."""
    return data if type(data) is bytes else memoryview(data).tobytes()


def bits_of(data: bytes, widths: Iterable[int]) -> Optional[int]:
    """Returns the number of bits that the bytes of a set name, if it is one of these."""
    return next((bits for bits in widths if data[5:6] == bytes([bits])), None)


class Reads(Base[T, V, I]):
    """A set of values that have an order, kept as runs that never touch."""

    __slots__ = ("__weakref__",)

    # numpy would take a set for an array of its members, and a - b for their differences.
    __array_ufunc__ = None

    # ---- How sets are made. Each type of sets says which elements it has.

    @classmethod
    def _element_for(cls, values: object, **options: Any) -> Element[Any]:
        """Returns the element that the options of a constructor name, for some values."""
        raise NotImplementedError

    def _options(self) -> Dict[str, Any]:
        """Returns the options by which a constructor makes such a set."""
        return {}

    @classmethod
    def _new(cls: Type[Self], element: Element[Any]) -> Self:
        """Returns an empty set, without a call of the constructor."""
        made: Self = _core.Set.__new__(cls)
        made._begin(element)
        return made

    def _start(self, values: Any, element: Element[Any]) -> None:
        """Makes this the set of some values."""
        self._begin(element)
        if isinstance(values, Reads) and values.element == element:
            self._take(values._copy())
        else:
            self._take(self._gathered(values, True)[0])

    def _gathered(self: Self, values: Any, is_adding: bool, is_operand: bool = False) -> Tuple[Self, bool]:
        """Returns the set of some values, and whether there are others that a set of this type cannot have.

        If it is for adding, these raise an exception. The items of a Python set that is an operand
        are its members, and no ranges.
        """
        if isinstance(values, Reads):
            return self._filled([(run.first, run.last) for run in values.runs()], is_adding, False)
        if isinstance(values, tuple):
            return self._filled(checked_pair(values), is_adding, False)
        if isinstance(values, Run) or (isinstance(values, range) and values.step == 1) or self.element.is_run(values):
            return self._filled([values], is_adding, False)
        if isinstance(values, str) and not isinstance(self.element.least, str):
            raise TypeError("parse() reads a set from text")
        numbers = numbers_of(values) if isinstance(self.element, Ints) else None
        if numbers is not None:
            return self._filled_by(*numbers, is_adding)
        return self._filled(values, is_adding, is_operand and isinstance(values, abc.Set))

    # ---- Places.

    @overload
    def __getitem__(self, place: SupportsIndex) -> T: ...

    @overload
    def __getitem__(self: Self, place: slice) -> Self: ...

    def __getitem__(self: Self, place: Union[SupportsIndex, slice]) -> Any:
        """Returns the member at a place of the ascending list of members, as the list would.

        A slice gives the set of the members at its places. Its step is 1.

            >>> RangeSet([range(1, 6), range(10, 21)])[-1]
            20
        """
        if isinstance(place, slice):
            return self._at_places(*place.indices(self.count()))
        number = index(place)
        if number < 0:
            number += self.count()
        if number < 0:
            raise IndexError("the set has no member at this place")
        return self._nth(number)

    def _at_places(self: Self, start: int, stop: int, step: int) -> Self:
        if step != 1:
            raise ValueError("a slice of a set has step 1")
        if start >= stop:
            return self._empty()
        window = self._filled([(self._nth(start), self._nth(stop - 1))], True, False)[0]
        return self._combine(1, window)

    def __reversed__(self) -> Iterator[T]:
        """Yields the members in descending order, as `iter` yields them in ascending order."""
        return self._walk(_core.VALUES, True)

    # ---- Runs and gaps.

    def runs(self) -> Runs[T]:
        """Returns a view of the runs, to iterate over in either direction.

            >>> for first, last in RangeSet([range(5), 9]).runs():
            ...     print(first, last)
            0 4
            9 9
        """
        return Runs(self)

    def ranges(self) -> Runs[T]:
        """Returns the same as `runs`."""
        return Runs(self)

    def gaps(self) -> Gaps[T]:
        """Returns a view of the gaps, to iterate over in either direction.

            >>> list(RangeSet([range(2**63)]).gaps())
            [Run(first=-9223372036854775808, last=-1)]
        """
        return Gaps(self)

    def first_run(self) -> Optional[Run[T]]:
        """Returns the run with the least members, or None if the set is empty."""
        return self.next_run()

    def last_run(self) -> Optional[Run[T]]:
        """Returns the run with the greatest members, or None if the set is empty."""
        return self.prev_run()

    def runs_in(self: Self, first: V, last: V) -> Runs[T]:
        """Returns a view of the runs of the members from first to last, both included.

        A run that crosses a bound is shortened to its values between the bounds.

            >>> list(RangeSet([range(5), 9, 20]).runs_in(3, 10))
            [Run(first=3, last=4), Run(first=9, last=9)]
        """
        window = self._filled([Run(first, last)], True, False)[0]
        return Runs(self._combine(1, window))

    @classmethod
    def from_runs(cls: Type[Self], runs: Iterable[Any], **options: Any) -> Self:
        """Returns the set of some runs: pairs of a first and a last value, both included.

        The pairs are runs, tuples or lists of two, or the rows of an array with two columns. A run
        whose last value is below its first one has no values. The options are those of the
        constructor.

            >>> RangeSet.from_runs([(7, 9), [1, 5]])
            RangeSet([range(1, 6), range(7, 10)])
        """
        if numbers_of(runs) is None:
            runs = [run if isinstance(run, Run) else Run(*run) for run in runs]
        made = cls._new(cls._element_for(runs, **options))
        made._take(made._gathered(runs, True)[0])
        return made

    # ---- Arrays.

    def to_array(self) -> array[int]:
        """Returns the members as an `array`, which `numpy.asarray` takes without a copy.

        Only sets of ints of 32 and 64 bits have arrays.

            >>> RangeSet([range(3), 9]).to_array()
            array('l', [0, 1, 2, 9])
        """
        element = self._ints()
        return array_of(self._values_bytes(), element.bits, element.signed)

    def runs_array(self) -> array[int]:
        """Returns the first and the last value of each run, one after the other, as an `array`.

        `numpy.asarray(s.runs_array()).reshape(-1, 2)` has a row for each run, and makes no copy.

            >>> RangeSet([range(3), 9]).runs_array()
            array('l', [0, 2, 9, 9])
        """
        element = self._ints()
        return array_of(self._ends_bytes(), element.bits, element.signed)

    def contains_array(self, values: Any) -> memoryview:
        """Returns for each value whether it is a member, as a buffer of booleans.

        `numpy.asarray` makes an array of it without a copy.

            >>> RangeSet(range(5)).contains_array([3, 7]).tolist()
            [True, False]
        """
        numbers = numbers_of(values) if isinstance(self.element, Ints) else None
        if numbers is None:
            found = bytes(map(self.__contains__, values))
        else:
            found = self._has_numbers(*numbers[:3])
        return memoryview(found).cast("?")

    def _ints(self) -> Ints:
        element = self.element
        if not isinstance(element, Ints):
            raise TypeError("only sets of ints have arrays of numbers")
        return element

    def __array__(self, *arguments: Any, **options: Any) -> Any:
        """Returns the members as an array of numpy, which is what `numpy.array(s)` calls."""
        import numpy

        plain = isinstance(self.element, Ints) and self.element.bits < 128
        options.pop("copy", None)
        return numpy.array(self.to_array() if plain else list(self), *arguments, **options)

    # ---- Text and pictures.

    def __str__(self) -> str:
        """Returns the runs as text, such as `1..=5, 10..=20`, which `parse` reads."""
        text: str = self.element.text_of_runs(iter(self.runs()))
        return text

    def __repr__(self) -> str:
        if isinstance(self.element, Ints):
            parts = [repr([run.values() for run in self.runs()])] if self else []
        else:
            parts = [repr([tuple(run) for run in self.runs()])] if self else []
        parts += [f"{name}={value!r}" for name, value in self._options().items()]
        return f"{type(self).__name__}({', '.join(parts)})"

    @classmethod
    def _parsed(cls: Type[Self], text: str, **options: Any) -> Self:
        """Returns the set of the values and ranges that text lists."""
        if not isinstance(text, str):
            raise TypeError(f"parse() reads a str, and not a {type(text).__name__}")
        element = cls._element_for((), **options)
        try:
            items = list(element.runs_in_text(text))
            made = cls._new(cls._element_for(items, **options))
            made._take(made._filled(items, True, False)[0])
        except OverflowError as error:
            raise ValueError(f"the text has a value too many: {error}") from None
        return made

    # ---- Bytes. Each type of sets has from_bytes, with the options of its constructor.

    @classmethod
    def _of(cls: Type[Self], data: bytes, **options: Any) -> Self:
        """Returns the set that has these bytes."""
        return cls._new(cls._element_for((), **options))._of_bytes(data)

    def _repr_svg_(self) -> str:
        """Returns a drawing of the runs on a line, which a notebook shows."""
        return picture(self)

    # ---- Copies.

    def copy(self: Self) -> Self:
        """Returns a copy, which owns its own memory."""
        return self._copy()

    def __copy__(self: Self) -> Self:
        return self.copy()

    def __deepcopy__(self: Self, memo: object) -> Self:
        return self.copy()

    def __reduce__(self) -> Tuple[Any, ...]:
        return self._unpickled, (self._options(), self.to_bytes()), getattr(self, "__dict__", None)

    @classmethod
    def _unpickled(cls: Type[Self], options: Dict[str, Any], data: bytes) -> Self:
        """Returns the set of the options and the bytes that a pickle keeps."""
        return cls._of(data, **options)

    @classmethod
    def _restored(cls: Type[Self], bits: int, data: bytes) -> Self:
        """Returns the set of a pickle of version 0.1, whose sets had no ints below 0."""
        made = cls._new(cls._element_for((), bits=bits, signed=False))
        made._take(made._gathered(memoryview(data).cast("Q", (len(data) // 16, 2)) if data else [], True)[0])
        return made
