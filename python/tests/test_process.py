"""What depends on the process: allocations that fail, threads, forks, and sets that are alive at the exit."""

import gc
import os
import resource
import shutil
import subprocess
import sys
import tempfile
import threading
import tracemalloc
import unittest
import weakref
from pathlib import Path

import range_set
from kinds import KINDS
from range_set import FrozenRangeSet, RangeSet

PACKAGE = Path(range_set.__file__).resolve().parent
TESTS = Path(__file__).resolve().parent


def run_python(script, **variables):
    """Runs a script in a new interpreter, and returns its status and what it printed."""
    paths = os.pathsep.join([str(PACKAGE.parent), str(TESTS)])
    environment = {**os.environ, "PYTHONPATH": paths, "PYTHONDONTWRITEBYTECODE": "1", **variables}
    ran = subprocess.run([sys.executable, "-c", script], capture_output=True, text=True, env=environment)
    return ran.returncode, ran.stdout + ran.stderr


FILL = """
import resource
from range_set import RangeSet
kept = RangeSet(range(0, 100_000, 2))
text = str(kept)
resource.setrlimit(resource.RLIMIT_AS, ({limit}, {limit}))
data = kept.to_bytes()
announced = data[:6] + bytes([255] * 8 + [127, 0, 0])  # 2**63 - 1 runs, and one of them
try:
    RangeSet.from_bytes(announced)
    assert False
except ValueError as error:
    assert "position 17: CutShort" in str(error), error
copies = []
try:
    while True:
        copies.append(kept.copy())
except MemoryError as error:
    failure = error
more = len(copies)
copies.clear()
assert "range set" in str(failure), failure
assert more > 10, more
assert str(kept) == text and kept.copy() == kept
for call in (lambda: RangeSet.from_bytes(data), kept.to_bytes):
    try:
        while True:
            copies.append(call())
    except MemoryError:
        assert len(copies) > 10
        copies.clear()
assert RangeSet.from_bytes(data) == kept and kept.to_bytes() == data
try:
    (~RangeSet(bits=32)).to_array()
    assert False
except MemoryError:
    print("refused")
"""

# A library that the loader puts before the others: the n-th allocation fails, and the blocks are counted.
REFUSE = """
#define _GNU_SOURCE
#include <dlfcn.h>
#include <stddef.h>
static long left = -1, blocks;
void refuse(long n) { left = n; }
long alive(void) { return blocks; }
static int refused(void) { return left > 0 && --left == 0; }
void *malloc(size_t size) {
    static void *(*next)(size_t);
    if (!next) next = (void *(*)(size_t))dlsym(RTLD_NEXT, "malloc");
    void *made = refused() ? 0 : next(size);
    blocks += made != 0;
    return made;
}
void *realloc(void *old, size_t size) {
    static void *(*next)(void *, size_t);
    if (!next) next = (void *(*)(void *, size_t))dlsym(RTLD_NEXT, "realloc");
    void *made = refused() ? 0 : next(old, size);
    blocks += made != 0 && old == 0;
    return made;
}
void free(void *old) {
    static void (*next)(void *);
    if (!next) next = (void (*)(void *))dlsym(RTLD_NEXT, "free");
    blocks -= old != 0;
    next(old);
}
"""
EACH = """
import ctypes, gc, os
from kinds import KINDS
shim = ctypes.CDLL(os.environ["LD_PRELOAD"])
shim.alive.restype = ctypes.c_long
refuse = shim.refuse

def calls(kind):
    low = kind.least
    left = [(low + 3 * at, low + 3 * at + 1) for at in range(100)]
    right = [(low + 5 * at, low + 5 * at + 1) for at in range(100)]
    other, values = kind.made(right), [kind.value(low + 4 * at) for at in range(100)]
    for call in (
        lambda it: it.add(kind.value(low + 302)), lambda it: it.discard(kind.value(low + 3)), lambda it: it | other,
        lambda it: it & other, lambda it: it - other, lambda it: it ^ other, lambda it: ~it, lambda it: it.copy(),
        lambda it: it.update(other), lambda it: it.difference_update(other), lambda it: it.intersection_update(other),
        lambda it: it.symmetric_difference_update(other), lambda it: it.update(values), lambda it: kind.made(left),
        lambda it: it.union(other, other), lambda it: type(it).at_least(2, [it, other], **kind.options),
        lambda it: it == values, lambda it: it <= set(values), lambda it: type(it)._unpickled(it._options(), it.to_bytes()),
    ):
        yield call, left

def tried(call, made, text, n):
    refuse(n)
    try:
        call(made)
    except MemoryError:
        refuse(-1)
        assert str(made) == text
        return False
    finally:
        refuse(-1)
    return True

count = 0
for kind in KINDS:
    for call, left in calls(kind):
        for n in range(1, 400):
            made = kind.made(left)
            text = str(made)
            if tried(call, made, text, n):
                break
            count += 1
        else:
            raise AssertionError("no end of allocations")
made = kind.made(left)
for round in range(3):
    before = shim.alive()
    for _ in range(300):
        tried(lambda it: it | kind.made(left), made, str(made), 3)
        tried(lambda it: it.copy(), made, str(made), 1)
    gc.collect()
grown = shim.alive() - before
assert grown < 100, grown
assert count > 200, count
print("each refused")
"""


@unittest.skipUnless(sys.platform == "linux", "needs Linux")
class Allocations(unittest.TestCase):
    def test_an_allocation_that_fails(self):
        self.assertEqual(run_python(FILL.format(limit=400 * 2**20)), (0, "refused\n"))

    @unittest.skipUnless(shutil.which("cc"), "needs cc")
    def test_each_allocation_that_fails(self):
        with tempfile.TemporaryDirectory() as folder:
            source, library = Path(folder, "refuse.c"), Path(folder, "refuse.so")
            source.write_text(REFUSE)
            subprocess.run(["cc", "-O1", "-fPIC", "-shared", str(source), "-o", str(library), "-ldl"], check=True)
            self.assertEqual(run_python(EACH, LD_PRELOAD=str(library)), (0, "each refused\n"))

    def test_sets_are_freed(self):
        kept = RangeSet(range(0, 40_000, 2))
        before = resource.getrusage(resource.RUSAGE_SELF).ru_maxrss
        for _ in range(600):
            kept.copy()
        grown = resource.getrusage(resource.RUSAGE_SELF).ru_maxrss - before
        self.assertLess(grown, 60_000)  # of at least 190,000 KB, if nothing were freed

    def test_failures_leak_nothing(self):
        wrong = [[(0, 2**62)] * 500 + [2**70], [1] * 5000 + ["x"], [(1, 2, 3)], {2**70}]
        before = resource.getrusage(resource.RUSAGE_SELF).ru_maxrss
        for _ in range(3000):
            for items in wrong:
                self.assertRaises((OverflowError, TypeError), RangeSet, items)
            self.assertRaises(ValueError, RangeSet, bits=8)
        grown = resource.getrusage(resource.RUSAGE_SELF).ru_maxrss - before
        self.assertLess(grown, 20_000)

    def test_subclasses_and_weak_references(self):
        class Named(RangeSet):
            pass

        before = sys.getrefcount(Named)
        for _ in range(100):
            made = Named([1])
            made.name, made.itself = "cycle", made
            made |= {2}
            gone = weakref.ref(made | [3])
            self.assertIsNone(gone())
        seen = weakref.ref(made)
        del made
        gc.collect()
        self.assertIsNone(seen())
        self.assertLess(sys.getrefcount(Named) - before, 5)

    def test_calls_keep_no_memory(self):
        for kind in KINDS:
            made, values = kind.made([kind.least]), [kind.value(kind.least + 300 + 2 * at) for at in range(50)]
            use_each_call(made, values, kind)
            tracemalloc.start()
            self.addCleanup(tracemalloc.stop)
            use_each_call(made, values, kind)
            gc.collect()
            before = tracemalloc.get_traced_memory()[0]
            for _ in range(30):
                use_each_call(made, values, kind)
            gc.collect()
            self.assertLess(tracemalloc.get_traced_memory()[0] - before, 40_000, kind.name)
            tracemalloc.stop()

    def test_references(self):
        """No call keeps or drops a reference too many to a value, a class or an element."""
        for kind in KINDS:
            values = [kind.value(kind.least + 2 * at) for at in range(50)]
            objects = [kind.changing, kind.frozen, kind.made().element]
            objects += [it for it in values if it not in range(-5, 257)]  # all of Python shares those
            before = None
            for _ in range(20):
                made = kind.made([kind.least])
                made.update(values, set(values), [(values[3], values[5])])
                use_each_call(made, values, kind)
                del made
                counts = [sys.getrefcount(it) for it in objects]
                self.assertTrue(before is None or all(now <= then + 2 for now, then in zip(counts, before)), kind.name)
                before = before or counts


def use_each_call(made, values, kind):
    for value in values[:9]:
        made.add(value), made.discard(value), made.rank(value), made.count(value, value), value in made
        made.run_of(value), made.gap_of(value), made.next_run(value), made.gap_before(value), made.first_gap(1, value)
    for wrong in ("xx", 2**200, [1], None):
        for call in (made.add, made.rank, made.__contains__, made.count, kind.changing):
            try:
                call(wrong)
            except (OverflowError, TypeError, ValueError):
                pass
    list(made), list(made.runs()), list(reversed(made.gaps())), [list(run) for run in made.runs()], repr(made)
    made == values, made <= set(values), made | values, ~made, made[3:5], hash(kind.frozen(made, **kind.options))
    made.first(), made.last(), made._repr_svg_(), made.copy(), type(made).at_least(1, [made, values], **kind.options)


EXITS = """
from range_set import FrozenRangeSet, RangeSet
import threading, time

kept = RangeSet(range(0, 1000, 2))
walk = iter(kept.runs())
next(walk)

class Late:
    def __init__(self):
        self.set = FrozenRangeSet(range(9))
        self.walk = iter(self.set.runs())

    def __del__(self):
        assert 5 in self.set and next(self.walk).last == 8

late, cycle = Late(), [Late(), kept.copy()]
cycle.append(cycle)

def work():
    while True:
        RangeSet(range(0, 50, 2)) | kept

threading.Thread(target=work, daemon=True).start()
time.sleep(0.05)
"""
FORKS = """
import multiprocessing, os
from range_set import RangeSet

kept = RangeSet(range(0, 1000, 2))

def work(made):
    made.add(1)
    return made | kept

if __name__ == "__main__":
    child = os.fork()
    if child == 0:
        kept.add(1)
        os._exit(0 if list(kept)[:3] == [0, 1, 2] and len(~kept | [(5, 9)]) > 0 else 1)
    assert os.waitpid(child, 0)[1] == 0
    with multiprocessing.get_context("fork").Pool(2) as pool:
        assert pool.map(work, [RangeSet([at]) for at in range(20)]) == [kept | [1, at] for at in range(20)]
    assert 1 not in kept
    print("forked")
"""


class Exits(unittest.TestCase):
    def test_sets_that_are_alive_at_exit(self):
        self.assertEqual(run_python(EXITS), (0, ""))

    @unittest.skipUnless(hasattr(os, "fork"), "needs fork")
    def test_forks_of_a_process_without_threads(self):
        self.assertEqual(run_python(FORKS.replace("len(~kept | [(5, 9)])", "(~kept | [(5, 9)]).count()")), (0, "forked\n"))

    def test_a_constructor_that_fails(self):
        for _ in range(100):
            self.assertRaises(OverflowError, RangeSet, [1, 2**64])
            self.assertRaises(ValueError, RangeSet, bits=8)
        self.assertEqual(len(RangeSet.__new__(RangeSet)), 0)

    def test_a_constructor_that_is_called_again(self):
        made = RangeSet([1, 2])
        walk = iter(made)
        made.__init__([5])
        self.assertEqual(made, {5})
        self.assertRaises(RuntimeError, next, walk)
        self.assertRaisesRegex(TypeError, "keeps the type", made.__init__, [6], bits=128)
        self.assertEqual(made, {5})

    def test_an_interrupt_ends_a_long_constructor(self):
        script = "import itertools, signal; from range_set import RangeSet\n"
        script += "signal.signal(signal.SIGALRM, signal.default_int_handler)\nsignal.setitimer(signal.ITIMER_REAL, 0.2)\n"
        script += "try: RangeSet(itertools.repeat(5))\nexcept KeyboardInterrupt: print('interrupted')"
        self.assertEqual(run_python(script), (0, "interrupted\n"))


class Threads(unittest.TestCase):
    def test_reading_and_changing(self):
        read, changed = RangeSet(range(0, 2000, 2)), RangeSet()
        results = []

        def work(number):
            total = sum(read) + sum(1 for value in range(2000) if value in read)
            for value in range(number, 4000, 4):
                changed.add(2 * value)
            results.append(total + read.count())

        interval = sys.getswitchinterval()
        sys.setswitchinterval(1e-6)
        try:
            in_threads([lambda number=number: work(number) for number in range(4)])
        finally:
            sys.setswitchinterval(interval)
        self.assertEqual(results, [999_000 + 1000 + 1000] * 4)
        self.assertEqual(list(changed), list(range(0, 8000, 2)))

    def test_each_member_is_popped_once(self):
        made, popped = RangeSet(range(3000)), []

        def work():
            while True:
                try:
                    popped.append(made.pop())
                except KeyError:
                    return

        in_threads([work] * 3)
        self.assertEqual(sorted(popped), list(range(3000)))


def in_threads(calls):
    threads = [threading.Thread(target=call) for call in calls]
    for thread in threads:
        thread.start()
    for thread in threads:
        thread.join()


if __name__ == "__main__":
    unittest.main()
