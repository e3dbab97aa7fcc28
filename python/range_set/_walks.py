"""The runs and the gaps of a set, as views to walk over in both directions."""

from __future__ import annotations

from typing import TYPE_CHECKING, Any, Generic, Iterator, TypeVar

from . import _core
from ._core import Run

if TYPE_CHECKING:
    from ._reads import Reads

T = TypeVar("T")


class Walk(Generic[T]):
    """What the views of runs and of gaps share: the set that they read."""

    __slots__ = ("_of",)
    _what: int

    def __init__(self, of: Reads[T, Any, Any]) -> None:
        self._of = of

    def __iter__(self) -> Iterator[Run[T]]:
        return self._of._walk(self._what, False)

    def __reversed__(self) -> Iterator[Run[T]]:
        return self._of._walk(self._what, True)

    def __repr__(self) -> str:
        return f"{type(self).__name__}({list(self)!r})"


class Runs(Walk[T]):
    """The runs of a set in ascending order; `reversed` gives them in descending order.

    If the set changes during a walk, the next step raises RuntimeError.
    """

    __slots__ = ()
    _what = _core.RUNS

    def __len__(self) -> int:
        return self._of._run_count()


class Gaps(Walk[T]):
    """The gaps of a set in ascending order; `reversed` gives them in descending order.

    A gap extends to the runs beside it, or to the least and the greatest value if there are none. If
    the set changes during a walk, the next step raises RuntimeError.
    """

    __slots__ = ()
    _what = _core.GAPS

    def __len__(self) -> int:
        element = self._of.element
        return self._of._run_count() + 1 - (element.least in self._of) - (element.greatest in self._of)
