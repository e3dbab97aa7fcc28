"""The inputs of the comparison: command lines, drawn by a seed.

Each workload has a name, what it is, and a function that yields its lines.
"""

import random

LEAST, GREATEST = -(2**31), 2**31 - 1


def number(draw):
    return draw.randint(LEAST, GREATEST)


def single(value):
    return f"add 0 {value} {value}"


def shuffled(draw, values):
    values = list(values)
    draw.shuffle(values)
    return values


def empty(draw):
    return (f"has 0 {number(draw)}" for _ in range(1_000_000))


def scattered(draw, commands=400_000):
    for _ in range(commands // 2):
        start = draw.randint(LEAST, GREATEST - 99)
        yield f"add 0 {start} {start + draw.randint(0, 99)}"
    for _ in range(commands // 2):
        yield f"has 0 {number(draw)}"
    yield "len 0"


def touching(draw):
    for odd in (0, 1):
        for place in shuffled(draw, range(100_000)):
            yield single(2 * place + odd)
    yield "len 0"
    yield "show 0"


def ascending_runs(draw, name, count=100_000):
    start = LEAST
    for _ in range(count):
        start += draw.randint(2, 10_000)
        end = start + draw.randint(0, 10_000)
        yield f"add {name} {start} {end}"
        start = end


def two_sets(draw):
    yield from ascending_runs(draw, 0)
    yield from ascending_runs(draw, 1)


def operations(draw):
    yield from two_sets(draw)
    for turn in range(10):
        left, right = (0, 1) if turn % 2 else (1, 0)
        for target, word in enumerate(("or", "and", "sub", "xor"), start=2):
            yield f"{word} {target} {left} {right}"
        yield f"not 6 {left}"


def depths(draw):
    yield from two_sets(draw)
    yield from ascending_runs(draw, 2)
    for _ in range(10):
        yield "most 3 0 1 2"
        yield "most 4 0 1 1"


def many_runs(draw):
    yield from ascending_runs(draw, 0)


def look_ups(draw):
    yield from ascending_runs(draw, 0)
    for _ in range(1_000_000):
        yield f"has 0 {draw.randint(LEAST, LEAST + 1_000_000_000)}"


def swallowed(draw):
    for turn in range(5):
        base = 300_000_000 * (turn - 3)
        for place in shuffled(draw, range(40_000)):
            yield single(base + 3 * place)
        for place in shuffled(draw, range(1_000)):
            yield f"add 0 {base + 120 * place} {base + 120 * place + 117}"


def removals(draw):
    yield f"add 0 {LEAST} {GREATEST}"
    values = [number(draw) for _ in range(200_000)]
    yield from (f"del 0 {value}" for value in values)
    yield from (f"gap 0 {draw.choice(values)}" for _ in range(100_000))
    yield from (single(value) for value in shuffled(draw, values))


def comparisons(draw):
    lines = list(ascending_runs(draw, 0))
    yield from lines
    yield from ("add 1" + line[len("add 0"):] for line in lines)
    yield single(GREATEST)
    yield from ("cmp 0 1" for _ in range(20))
    yield from ("show 0" for _ in range(5))


WORKLOADS = {
    "empty": ("a million `has` on the empty set: reading, parsing, writing", empty),
    "scattered": ("200,000 random `add`, then 200,000 `has`", scattered),
    "touching": ("200,000 `add` that touch and collapse", touching),
    "two-sets": ("two sets of 100,000 runs", two_sets),
    "operations": ("the same, and fifty operations on them", operations),
    "depths": ("three sets of 100,000 runs, and twenty `most` on them", depths),
    "runs": ("a set of 100,000 runs", many_runs),
    "look-ups": ("the same, then a million `has`", look_ups),
    "ten-thousand": ("10,000 commands, half `add`, half `has`", lambda draw: scattered(draw, 10_000)),
    "hundred-thousand": ("100,000 of them", lambda draw: scattered(draw, 100_000)),
    "million": ("a million of them", lambda draw: scattered(draw, 1_000_000)),
    "swallowed": ("200,000 single runs swallowed by 5,000 `add`", swallowed),
    "removals": ("200,000 `del` that split, 100,000 `gap`, 200,000 `add`", removals),
    "comparisons": ("two sets of 100,000 runs, 20 `cmp`, 5 `show`", comparisons),
}


def write(name, seed, path):
    draw = random.Random(f"{name} {seed}")
    with open(path, "w") as file:
        file.writelines(line + "\n" for line in WORKLOADS[name][1](draw))
