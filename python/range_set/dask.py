"""Sets of the values in the partitions of Dask.

Each worker builds the set of its partitions, and sends it as bytes (docs/FORMAT.md). The sets are then combined in a tree,
so no task holds more than a few of them. A result is a `dask.delayed.Delayed`; its `compute()` returns a `RangeSet`. It does
not depend on the number of workers, on the order of their work, or on a worker that is lost during it.

This module needs the package `dask`: `pip install range_set[dask]`.
"""
from __future__ import annotations

from functools import reduce
from typing import TYPE_CHECKING, Any, Callable, Iterable, List, Sequence

from range_set import RangeSet

if TYPE_CHECKING:  # The types of Dask name no results, and Dask may be absent.
    Delayed = Any
    delayed: Any
else:
    from dask.delayed import Delayed, delayed

__all__ = ["at_least", "from_bag", "from_series", "intersection", "union"]

Levels = List[bytes]


def from_bag(bag: Any, *, bits: int = 64, signed: bool = True, split_every: int = 8) -> Delayed:
    """Returns the set of the values in a `dask.bag.Bag` of ints.

    `bits` and `signed` are those of `RangeSet`. A task combines at most `split_every` sets.
    """
    return _union_of_parts(bag.to_delayed(), list, bits, signed, split_every)


def from_series(series: Any, *, bits: int = 64, signed: bool = True, split_every: int = 8) -> Delayed:
    """Returns the set of the values in a `dask.dataframe.Series` of ints, without those that are missing."""
    return _union_of_parts(series.to_delayed(), _values_of, bits, signed, split_every)


def union(sets: Iterable[Any], *, split_every: int = 8) -> Delayed:
    """Returns the values in at least one of the sets. Each is a `RangeSet`, or a result of this module.

    The union of no sets is empty.
    """
    return _combined([_sent(one) for one in sets], _union, RangeSet(), split_every)


def intersection(sets: Iterable[Any], *, split_every: int = 8) -> Delayed:
    """Returns the values in all of the sets. Each is a `RangeSet`, or a result of this module.

    The intersection of no sets has every value of a `RangeSet()`.
    """
    return _combined([_sent(one) for one in sets], _intersection, ~RangeSet(), split_every)


def at_least(k: int, sets: Iterable[Any], *, split_every: int = 8) -> Delayed:
    """Returns the values in at least `k` of the sets. Each is a `RangeSet`, or a result of this module.

    A task sends `k` sets: the values in at least 1, 2, .. `k` of the sets that it has seen.
    """
    if k < 1:
        raise ValueError(f"k is {k}, but must be at least 1")
    levels = [delayed(_first_level)(_sent(one)) for one in sets]
    if len(levels) < k:
        return delayed(RangeSet)()
    tree = _reduced(levels, delayed(_merged_levels), split_every, k)
    return delayed(_level)(tree, k)


def _union_of_parts(
    parts: Sequence[Delayed], values: Callable[[Any], Any], bits: int, signed: bool, split_every: int
) -> Delayed:
    """Returns the set of the values of all parts."""
    built = [delayed(_set_of_values)(part, values, bits, signed) for part in parts]
    return _combined(built, _union, RangeSet(bits=bits, signed=signed), split_every, signed)


def _combined(
    sent: List[Delayed],
    combine: Callable[[List[bytes]], bytes],
    of_none: RangeSet,
    split_every: int,
    signed: bool = True,
) -> Delayed:
    """Returns what a tree of tasks makes of some sets, or the result for no sets.

    Bytes are about ranks, so the tasks need not know whether the values are signed.
    """
    if not sent:
        return delayed(of_none)
    return delayed(RangeSet.from_bytes)(_reduced(sent, delayed(combine), split_every), signed=signed)


def _reduced(nodes: List[Delayed], combine: Any, split_every: int, *more: int) -> Delayed:
    """Combines the nodes of a tree until one is left."""
    if split_every < 2:
        raise ValueError(f"split_every is {split_every}, but must be at least 2")
    while len(nodes) > 1:
        groups = (nodes[start : start + split_every] for start in range(0, len(nodes), split_every))
        nodes = [combine(group, *more) for group in groups]
    return nodes[0]


def _sent(one: Any) -> Delayed:
    """Returns a set as the bytes that a task receives."""
    return delayed(RangeSet.to_bytes)(one)


# ---- what workers run


def _values_of(series: Any) -> Any:
    return series.dropna().to_numpy()


def _set_of_values(part: Any, values: Callable[[Any], Any], bits: int, signed: bool) -> bytes:
    return RangeSet(values(part), bits=bits, signed=signed).to_bytes()


def _union(sent: List[bytes]) -> bytes:
    first, *others = map(RangeSet.from_bytes, sent)
    return first.union(*others).to_bytes()


def _intersection(sent: List[bytes]) -> bytes:
    first, *others = map(RangeSet.from_bytes, sent)
    return first.intersection(*others).to_bytes()


def _first_level(sent: bytes) -> Levels:
    return [sent]


def _merged_levels(nodes: List[Levels], k: int) -> Levels:
    """Returns the values in at least 1, 2, .. `k` of the sets of all nodes."""
    read = ([RangeSet.from_bytes(level) for level in node] for node in nodes)
    return [level.to_bytes() for level in reduce(lambda left, right: _merged(left, right, k), read)]


def _merged(left: List[RangeSet], right: List[RangeSet], k: int) -> List[RangeSet]:
    """A value is in at least `n` sets if it is in at least `i` on the left, and in at least `n - i` on the right."""
    levels = []
    for n in range(1, min(k, len(left) + len(right)) + 1):
        ways = []
        for i in range(max(0, n - len(right)), min(n, len(left)) + 1):
            sides = ([left[i - 1]] if i else []) + ([right[n - i - 1]] if n > i else [])
            ways.append(sides[0].intersection(*sides[1:]))
        levels.append(ways[0].union(*ways[1:]))
    return levels


def _level(levels: Levels, k: int) -> RangeSet:
    return RangeSet.from_bytes(levels[k - 1])
