"""Arrays of numbers: numpy's, those of `array`, and other objects with a buffer of ints."""

from __future__ import annotations

import sys
from array import array
from typing import Any, NamedTuple, Optional

CODES = "bBhHiIlLqQ"


class Numbers(NamedTuple):
    """The numbers of an array, in the order of bytes of the machine."""

    data: bytes
    size: int  # of a number in bytes
    is_signed: bool
    are_ends: bool  # whether each row has a first and a last value


def is_array(values: object) -> bool:
    """Returns whether an object is an array of one or two dimensions."""
    return isinstance(values, (array, memoryview)) or (hasattr(values, "__array__") and getattr(values, "ndim", 0) in (1, 2))


def view_of(values: Any) -> Optional[memoryview]:
    """Returns the buffer of an object, or None if it has none."""
    if isinstance(values, (list, tuple, set, frozenset, range)):
        return None
    try:
        return memoryview(values)
    except (BufferError, TypeError, ValueError):
        # Those of pandas give an array of numpy.
        return memoryview(values.__array__()) if hasattr(values, "__array__") and not hasattr(values, "__array_ufunc__") else None


def numbers_of(values: object) -> Optional[Numbers]:
    """Returns the numbers of an array of ints, or None if an object is none."""
    view = view_of(values)
    if view is None or view.ndim == 0:
        return None
    native = "@=<" if sys.byteorder == "little" else "@=>"
    code = view.format.lstrip(native)
    if code not in CODES or not code:
        return None
    if view.ndim > 2 or (view.ndim == 2 and view.shape is not None and view.shape[1] != 2):
        raise ValueError("an array of runs has two columns, the first and the last values")
    return Numbers(view.tobytes(), view.itemsize, code.islower(), view.ndim == 2)


def array_of(data: bytes, bits: int, is_signed: bool) -> array[int]:
    """Returns an array of numbers of a width."""
    codes = [code for code in CODES if array(code).itemsize * 8 == bits and code.islower() == is_signed]
    if not codes:
        raise ValueError(f"no array has numbers of {bits} bits")
    made: array[int] = array(codes[0])
    made.frombytes(data)
    return made
