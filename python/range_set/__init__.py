"""Sets of ints, dates, addresses and other values, kept as sorted runs: {1, 2, 3, 7, 8} is 1..=3, 7..=8.

The sets are those of Wooljasper's C library, whose calls are proved. This package is not proved:
it checks each argument, owns the memory, and makes the calls.

    >>> from range_set import RangeSet
    >>> open_hours = RangeSet([range(9, 12), (13, 18)])
    >>> open_hours.add(12)
    True
    >>> open_hours
    RangeSet([range(9, 19)])
    >>> str(open_hours - RangeSet.parse("10..=14"))
    '9..=9, 15..=18'
"""

from . import _core
from ._core import Run
from ._elements import Element
from ._sets import (
    AddressSet,
    CharSet,
    DateSet,
    ElementSet,
    FrozenAddressSet,
    FrozenCharSet,
    FrozenDateSet,
    FrozenElementSet,
    FrozenRangeSet,
    RangeSet,
)

__all__ = [
    "AddressSet",
    "CharSet",
    "DateSet",
    "Element",
    "ElementSet",
    "FrozenAddressSet",
    "FrozenCharSet",
    "FrozenDateSet",
    "FrozenElementSet",
    "FrozenRangeSet",
    "RangeSet",
    "Run",
]
__version__ = "0.2.0"

if _core.version != __version__:
    raise ImportError(f"the extension module is of version {_core.version}, and the package of {__version__}: install it again")

# Messages and pickles name this package, and no module inside of it.
for _name in __all__:
    if _name != "Run":
        globals()[_name].__module__ = __name__
