"""Prints how many ids some files have, and those that at least three of the files have.

    python3 examples/shared_ids.py FILE..

Each line of a file is an id. The files may be larger than memory: workers of Dask read them in parts.
"""
import sys

import dask.bag
from range_set.dask import at_least, from_bag, union


def main():
    sets = [from_bag(dask.bag.read_text(path, blocksize="16MiB").map(int)) for path in sys.argv[1:]]
    all_ids, shared = dask.compute(union(sets), at_least(3, sets))
    print(f"{len(all_ids)} ids, of which at least three files have {shared}")


if __name__ == "__main__":
    main()
