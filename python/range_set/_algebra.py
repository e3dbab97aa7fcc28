"""The comparisons and the set algebra of all range sets."""

from __future__ import annotations

from collections import abc
from operator import index
from typing import Any, Iterable, List, Optional, SupportsIndex, Tuple, Type, TypeVar

from ._arrays import is_array
from ._core import Run
from ._elements import Ints
from ._reads import I, Reads, T, V, checked_pair

Self = TypeVar("Self", bound="Algebra[Any, Any, Any]")

UNION, INTERSECTION, DIFFERENCE, SYMMETRIC_DIFFERENCE = range(4)
OPERANDS = abc.Set, list, tuple, range, Run


def is_operand(other: object) -> bool:
    """Returns whether an operator takes an object: sets, lists, tuples and runs, and arrays.

    See docs/DECISIONS.md, equal-to-lists.
    """
    return isinstance(other, OPERANDS) or is_array(other)


class Algebra(Reads[T, V, I]):
    """Comparisons and set algebra, as Python's sets have them.

    Operators and comparisons take any set, and lists, tuples of two, ranges, runs and arrays.
    Methods also take any other iterable of values, ranges and runs. Comparisons are by members. Set
    algebra on range sets of different types raises ValueError.
    """

    __slots__ = ()

    def _like(self: Self, other: Reads[Any, Any, Any]) -> Reads[Any, Any, Any]:
        """Returns another set if its values are of the same type, or raises ValueError."""
        if other.element == self.element:
            return other
        one, two = self.element, other.element
        advice = f"{type(self).__name__}(other) converts it" if isinstance(one, Ints) and isinstance(two, Ints) else ""
        if advice and self._options():
            advice = advice.replace("other", ", ".join(["other", *(f"{k}={v!r}" for k, v in self._options().items())]))
        raise ValueError(f"one set has {one!r}, and the other has {two!r}" + (f": {advice}" if advice else ""))

    def _takes(self, other: object) -> bool:
        """Returns whether an operator takes an object."""
        return is_operand(other) or self.element.is_run(other)

    def _other(self: Self, values: Any, is_adding: bool, is_operand: bool = False) -> Any:
        """Returns a set of this type with some values, for set algebra."""
        if isinstance(values, Reads):
            return self._like(values)
        return self._gathered(values, is_adding, is_operand)[0]

    def _compared(self: Self, values: Any, is_operand: bool = False) -> Tuple[Any, bool]:
        """Returns the set of those of some values that this set can have, and whether there are others."""
        if isinstance(values, Reads) and values.element == self.element:
            return values, False
        return self._gathered(values, False, is_operand)

    def _combined(self: Self, how: int, other: object, is_adding: bool) -> Self:
        """Returns what an operator makes of this set and another."""
        if not self._takes(other):
            return NotImplemented
        return self._combine(how, self._other(other, is_adding, True))

    def _made_of(self: Self, how: int, others: Tuple[Any, ...], is_adding: bool) -> Self:
        """Returns what a method makes of this set and others."""
        if len(others) == 1:
            return self._combine(how, self._other(others[0], is_adding))
        return self._combine_many(how, [self, *(self._other(values, is_adding) for values in others)])

    # ---- Operators. They make a set of the left set's type, or of the only range set's type.

    def __or__(self: Self, other: Any) -> Self:
        """Returns the values that are in either set."""
        return self._combined(UNION, other, True)

    def __and__(self: Self, other: Any) -> Self:
        """Returns the values that are in both sets."""
        return self._combined(INTERSECTION, other, False)

    def __sub__(self: Self, other: Any) -> Self:
        """Returns the values that are in this set and not in the other."""
        return self._combined(DIFFERENCE, other, False)

    def __xor__(self: Self, other: Any) -> Self:
        """Returns the values that are in exactly one of the sets."""
        return self._combined(SYMMETRIC_DIFFERENCE, other, True)

    # Python calls these if the left operand is none of this package.

    __ror__ = __or__
    __rand__ = __and__
    __rxor__ = __xor__

    def __rsub__(self: Self, other: Any) -> Self:
        """Returns the values that are in the other set and not in this one."""
        if not self._takes(other):
            return NotImplemented
        made: Self = self._other(other, True, True)
        return made._combine(DIFFERENCE, self)

    def __invert__(self: Self) -> Self:
        """Returns the complement: all values of the type that are not in this set.

            >>> ~RangeSet(range(3, 7), bits=32, signed=False)
            RangeSet([range(0, 3), range(7, 4294967296)], bits=32, signed=False)
        """
        return self._complement()

    # ---- The same as methods, with any number of other sets.

    def union(self: Self, *others: Iterable[I]) -> Self:
        """Returns the values that are in this set or in any of the others."""
        return self._made_of(UNION, others, True)

    def intersection(self: Self, *others: Iterable[Any]) -> Self:
        """Returns the values that are in this set and in each of the others."""
        return self._made_of(INTERSECTION, others, False)

    def difference(self: Self, *others: Iterable[Any]) -> Self:
        """Returns the values that are in this set and in none of the others."""
        made = self._copy()
        for values in others:
            made._change(DIFFERENCE, made._other(values, False))
        return made

    def symmetric_difference(self: Self, *others: Iterable[I]) -> Self:
        """Returns the values that are in an odd number of the sets: this one and the others."""
        return self._made_of(SYMMETRIC_DIFFERENCE, others, True)

    @classmethod
    def at_least(cls: Type[Self], k: SupportsIndex, sets: Iterable[Iterable[I]], **options: Any) -> Self:
        """Returns the values that are in at least `k` of the sets: every value if `k` is 0.

        The type of the values is that of the first range set, unless the options of the constructor
        say it. A set that comes twice counts twice.

            >>> RangeSet.at_least(2, [[1, 2, 3], [(2, 5)], {3, 5}])
            RangeSet([range(2, 4), range(5, 6)])
        """
        wanted, given = index(k), list(sets)
        if wanted < 0:
            raise ValueError("the number of sets is at least 0")
        first = next((values for values in given if isinstance(values, Reads)), None)
        element = first.element if first is not None and not options else cls._element_for((), **options)
        made = cls._new(element)
        others: List[Any] = [made._other(values, True) for values in given]
        return made._at_least(min(wanted, len(given) + 1), others)

    # ---- Comparisons, by members.

    def __eq__(self, other: object) -> bool:
        """Returns whether both sets have the same members."""
        if not self._takes(other):
            return NotImplemented
        if isinstance(other, tuple):
            checked_pair(other)
        try:
            made, has_others = self._compared(other, True)
        except TypeError:
            return False  # an item is not hashable, and so in no set
        return not has_others and self._equal(made)

    def __le__(self, other: Any) -> bool:
        """Returns whether this set is a subset of the other, as for Python's sets."""
        if not self._takes(other):
            return NotImplemented
        return self._is_subset(self._compared(other, True)[0])

    def __lt__(self, other: Any) -> bool:
        """Returns whether this set is a subset of the other and is not equal to it."""
        if not self._takes(other):
            return NotImplemented
        made, has_others = self._compared(other, True)
        return self._is_subset(made) and (has_others or not self._equal(made))

    def __ge__(self, other: Any) -> bool:
        """Returns whether this set is a superset of the other, as for Python's sets."""
        if not self._takes(other):
            return NotImplemented
        made, has_others = self._compared(other, True)
        return not has_others and bool(made._is_subset(self))

    def __gt__(self, other: Any) -> bool:
        """Returns whether this set is a superset of the other and is not equal to it."""
        if not self._takes(other):
            return NotImplemented
        made, has_others = self._compared(other, True)
        return not has_others and bool(made._is_subset(self)) and not self._equal(made)

    def issubset(self, other: Iterable[Any]) -> bool:
        """Returns whether each member of this set is in the other."""
        return self._is_subset(self._compared(other)[0])

    def issuperset(self, other: Iterable[Any]) -> bool:
        """Returns whether each member of the other is in this set."""
        made, has_others = self._compared(other)
        return not has_others and bool(made._is_subset(self))

    def isdisjoint(self, other: Iterable[Any]) -> bool:
        """Returns whether no value is in both sets."""
        made, _ = self._compared(other)
        return self._is_disjoint(made)

    def compare(self, other: Algebra[T, Any, Any]) -> int:
        """Returns -1, 0 or 1 if this set is less than, equal to or greater than the other.

        Sets compare as the ascending lists of their members do, and not by inclusion. To sort by
        this order, use `sorted(sets, key=functools.cmp_to_key(RangeSet.compare))`.
        """
        if not isinstance(other, Algebra):
            raise TypeError("compare() takes another range set")
        return self._order(other) if other.element == self.element else order_of_runs(list(self.runs()), list(other.runs()))


def order_of_runs(left: List[Any], right: List[Any]) -> int:
    """Returns how the sets of some runs compare."""
    for at in range(min(len(left), len(right))):
        one, two = left[at], right[at]
        if one.first != two.first:
            return -1 if one.first < two.first else 1
        if one.last != two.last:
            shorter, longer = (left, -1) if one.last < two.last else (right, 1)
            return longer if at + 1 == len(shorter) else -longer
    return (len(left) > len(right)) - (len(left) < len(right))
