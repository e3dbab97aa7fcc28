"""Lists of a user's shape, drawn from a seed, as the races read them.

Of 100 lines, 60 are single addresses, 30 are blocks and 10 are ranges. Each list is written as IPv4, and as IPv6 with the
same numbers below one site.
"""
import ipaddress
import os
import random
import subprocess
import sys
import time
from multiprocessing import Process

# The part of IPv6 that the numbers of the lists are put into, as its upper 64 bits are the site's.
SITE = 0x20010DB8 << 96


def drawn_lines(draw, lines):
    """Each line as the number of its first address, and its length or its last number; None for a single address."""
    for _ in range(lines):
        first, kind = draw.getrandbits(32), draw.randrange(100)
        if kind < 60:
            yield first, None, None
        elif kind < 90:
            yield first, draw.randrange(20, 32), None
        else:
            yield first, None, min(first + draw.randrange(1, 2000), (1 << 32) - 1)


def line(drawn, address, base, longer):
    """A drawn line as text, in a family."""
    first, length, last = drawn
    if length is not None:
        return f"{address(base + first)}/{length + longer}\n"
    if last is not None:
        return f"{address(base + first)}-{address(base + last)}\n"
    return f"{address(base + first)}\n"


def names_of(folder):
    """The names of the three lists by family."""
    return {family: [f"{folder}/list{at}-v{family}" for at in range(3)] for family in (4, 6)}


def write_lists(folder, lines, seed):
    """Writes three lists as IPv4 and as IPv6."""
    draw, names = random.Random(seed), names_of(folder)
    for at in range(3):
        drawn = list(drawn_lines(draw, lines))
        for family, address, base, longer in ((4, ipaddress.IPv4Address, 0, 0), (6, ipaddress.IPv6Address, SITE, 96)):
            with open(names[family][at], "w") as it:
                it.writelines(line(each, address, base, longer) for each in drawn)


def make_lists(folder, lines, seed):
    """Writes the lists in a process of its own, and returns their names. A program's peak memory includes that of the
    process that starts it, so this one stays small."""
    maker = Process(target=write_lists, args=(folder, lines, seed))
    maker.start()
    maker.join()
    return names_of(folder)


def timed(words, output, statuses=(0,), **how):
    """The seconds and the peak kilobytes of a run that writes to a file. It ends this program if the run's status is
    another than these."""
    with open(output, "wb") as it:
        begun = time.perf_counter()
        process = subprocess.Popen(words, stdout=it, **how)
        _, status, used = os.wait4(process.pid, 0)
        seconds = time.perf_counter() - begun
    process.returncode = os.waitstatus_to_exitcode(status)
    if process.returncode not in statuses:
        sys.exit(f"{words[0]} ended with status {process.returncode}")
    return seconds, used.ru_maxrss
