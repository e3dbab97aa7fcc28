"""Writes the bytes of sets to files, or reads them: sets.py (write | read) FOLDER. tools/c/try-bytes calls it.

The sets are those of sets.c.
"""

import sys
from pathlib import Path

from range_set import RangeSet

mode, folder = sys.argv[1], Path(sys.argv[2])
for bits in (32, 64, 128):
    for signed in (False, True):
        least = -(2 ** (bits - 1)) if signed else 0
        greatest = least + 2**bits - 1
        spread = [(least + 1000 * at * at, least + 1000 * at * at + 7 * at) for at in range(1000)]
        sets = {"spread": [*spread, greatest], "all": [(least, greatest)], "none": []}
        for name, runs in sets.items():
            file = folder / f"{'i' if signed else 'u'}{bits}-{name}"
            made = RangeSet(runs, bits=bits, signed=signed)
            if mode == "write":
                file.write_bytes(made.to_bytes())
            elif RangeSet.from_bytes(file.read_bytes(), signed=signed) != made:
                sys.exit(f"{file} has another set")
