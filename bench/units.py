"""Figures as the tables show them, with three digits."""


def seconds(time):
    """A time in nanoseconds, microseconds, milliseconds or seconds."""
    for unit, size in (("s", 1), ("ms", 1e-3), ("µs", 1e-6)):
        if time >= 0.9995 * size:
            return f"{time / size:.3g} {unit}"
    return f"{time * 1e6:.3g} µs"


def count(number):
    """A number of instructions."""
    for unit, size in ((" G", 1e9), (" M", 1e6), (" k", 1e3)):
        if number >= 0.9995 * size:
            return f"{number / size:.3g}{unit}"
    return f"{number:.3g}"


def ratio(here, other):
    """A ratio of two counts or times."""
    share = here / other
    return f"{share:.2f}" if share >= 0.01 else "< 0.01"
