"""Sets over the partitions of Dask: the answers are those of one process, also if a worker is lost."""
import os
import signal
import tempfile
import unittest
import warnings
from pathlib import Path

from range_set import RangeSet

# Dask warns of what its own packages do.
QUIET = warnings.catch_warnings()
with warnings.catch_warnings():
    warnings.simplefilter("ignore")
    try:
        import dask
        import dask.bag
        import dask.dataframe
        import pandas
        from distributed import Client, LocalCluster

        from range_set.dask import at_least, from_bag, from_series, intersection, union
    except ImportError:
        dask = None

VALUES = [value * 7919 % 10007 for value in range(5000)]
PARTS = [RangeSet([range(10 * i, 10 * i + 25), 1000 + i]) for i in range(20)]


def setUpModule():
    QUIET.__enter__()
    warnings.simplefilter("ignore")


def tearDownModule():
    QUIET.__exit__(None, None, None)


def lost_once(values, marker):
    """Returns the values, after the first process that was asked for them has ended."""
    if not os.path.exists(marker):
        Path(marker).touch()
        os.kill(os.getpid(), signal.SIGKILL)
    return values


@unittest.skipIf(dask is None, "the package dask is not installed")
class OneProcess(unittest.TestCase):
    def setUp(self):
        self.settings = dask.config.set(scheduler="synchronous")
        self.addCleanup(self.settings.__exit__, None, None, None)

    def test_values_of_a_bag(self):
        for parts in (1, 3, 64):
            bag = dask.bag.from_sequence(VALUES, npartitions=parts)
            self.assertEqual(from_bag(bag).compute(), RangeSet(VALUES))

    def test_values_of_a_series_without_missing_ones(self):
        series = pandas.Series([5, None, -3, 4, 2**40], dtype="Int64")
        parts = dask.dataframe.from_pandas(series, npartitions=2)
        self.assertEqual(from_series(parts).compute(), RangeSet([-3, 4, 5, 2**40]))

    def test_unsigned_and_wide_values(self):
        bag = dask.bag.from_sequence([0, 2**64 - 1, 2**63], npartitions=3)
        self.assertEqual(list(from_bag(bag, signed=False).compute()), [0, 2**63, 2**64 - 1])
        bag = dask.bag.from_sequence([-(2**127), 2**127 - 1], npartitions=2)
        self.assertEqual(list(from_bag(bag, bits=128).compute()), [-(2**127), 2**127 - 1])

    def test_unions_and_intersections(self):
        for split_every in (2, 3, 100):
            self.assertEqual(union(PARTS, split_every=split_every).compute(), RangeSet().union(*PARTS))
            self.assertEqual(
                intersection(PARTS[:2], split_every=split_every).compute(), PARTS[0].intersection(PARTS[1])
            )
        self.assertEqual(union([]).compute(), RangeSet())
        self.assertEqual(intersection([]).compute(), ~RangeSet())

    def test_values_in_at_least_k_sets(self):
        for k in (1, 2, 3, 5, 21):
            counts = {value: sum(value in part for part in PARTS) for value in RangeSet().union(*PARTS)}
            wanted = RangeSet(value for value, count in counts.items() if count >= k)
            for split_every in (2, 7):
                self.assertEqual(at_least(k, PARTS, split_every=split_every).compute(), wanted)

    def test_results_are_inputs_of_others(self):
        bags = [dask.bag.from_sequence(part, npartitions=2) for part in PARTS[:3]]
        shared = at_least(2, [from_bag(bag) for bag in bags])
        self.assertEqual(union([shared, RangeSet([-1])]).compute(), RangeSet([-1, range(10, 35)]))

    def test_what_is_refused(self):
        with self.assertRaisesRegex(ValueError, "k is 0"):
            at_least(0, PARTS)
        with self.assertRaisesRegex(ValueError, "split_every is 1"):
            union(PARTS, split_every=1)


@unittest.skipIf(dask is None, "the package dask is not installed")
class FourProcesses(unittest.TestCase):
    def test_a_worker_is_lost(self):
        with tempfile.TemporaryDirectory() as folder, LocalCluster(
            n_workers=4, threads_per_worker=1, processes=True, dashboard_address=None, silence_logs=50
        ) as cluster, Client(cluster):
            marker = os.path.join(folder, "lost")
            parts = [VALUES[start::40] for start in range(40)]
            bag = dask.bag.from_delayed([dask.delayed(lost_once)(part, marker) for part in parts])
            self.assertEqual(from_bag(bag).compute(), RangeSet(VALUES))
            self.assertTrue(os.path.exists(marker))


if __name__ == "__main__":
    unittest.main()
