"""Uses the sets from Python, with the package in python/: python3 examples/ranges.py"""

from range_set import RangeSet

open_hours = RangeSet()
assert open_hours.add(9, 11)
assert open_hours.add(range(13, 19))
assert open_hours.add(12)
assert not open_hours.add(10, 17)
assert 12 in open_hours and range(9, 19) in open_hours
print("open", *(f"{first}..={last}" for first, last in open_hours.runs()))
print("closed", ~open_hours)

busy_hours = RangeSet.parse("10..=14")
for first, last in (open_hours - busy_hours).runs():
    print(f"{first}..={last}")
