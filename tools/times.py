"""The times of commands in README.md and docs/GUIDE.md, which are those that bench/first-hour wrote to docs/SPEED.md.

A command in a block of code has behind it what it takes: minutes of processor, how many times those of `rt selftest`
they are, and gigabytes that it leaves on disk, if there are any.

    cd crates/rsb_run && rt try < stdin    # 0.8 min, 0.6 ×

The gate's figures are those of the table of tools/gate-cost. Each command of the tables has to be on one of the pages.
The text of a page names no other time, and the figures of a table or paragraph below a comment such as

    <!-- figures: docs/SPEED.md docs/C.md -->

are on one of the pages that the comment names.
"""
import re
from dataclasses import dataclass
from pathlib import Path

import page_text

ROOT = Path(__file__).resolve().parent.parent
SPEED = ROOT / "docs" / "SPEED.md"
PAGES = (ROOT / "README.md", ROOT / "docs" / "GUIDE.md")
NOT_MEASURED = "not measured"

# A row of the first hour: the command, seconds of processor, seconds on the clock, units, and gigabytes.
ROW = re.compile(r"^\| `([^`]+)` \| ([\d.]+|not measured) \| ([\d.]*) \| ([\d.]*) \| ([\d.]*) \|$", re.M)
# The row of the gate, from tools/gate-cost: units, the bound, and seconds of processor.
GATE = re.compile(r"^\| `(rt ci)`, the gate \| ([\d.]+) \| [\d.]+ \| ([\d.]+) s \| [\d.]+ s \|$", re.M)
# A command on a page, with what it takes.
TIMED = re.compile(r"^(?P<before>(?:\$ )?)(?P<command>\S.*?)(?P<space> +)# (?P<shown>[\d.]+ min, [\d.]+ ×(?:, [\d.]+ GB)?|not measured)$", re.M)
# A time in the text of a page.
TIME = re.compile(r"\b(?:(?:\d[\d.,]*|an?|half|one|two|three|few|several) (?:minutes?|hours?)|(?:\d[\d.,]*|few|in|of) seconds?)\b")
DISK = re.compile(r"\b[\d.]+ GB\b")
MARKED = re.compile(r"^<!-- figures: (.*) -->\n\n?((?:.+\n)+)", re.M)
FIGURE = re.compile(r"\d[\d.,]*\d|\d")


@dataclass
class Figures:
    """What a command took: seconds of processor, how many times those of `rt selftest`, and gigabytes left on disk."""

    processor: float
    units: float
    gigabytes: float = 0

    def shown(self):
        """The text of the figures on a page."""
        disk = f", {rounded(self.gigabytes)} GB" if self.gigabytes >= 0.1 else ""
        return f"{rounded(self.processor / 60)} min, {rounded(self.units)} ×{disk}"


def rounded(number):
    """A number with one digit after the point, or with none from ten on."""
    return f"{number:.1f}" if number < 9.95 else f"{number:.0f}"


def measured():
    """What each command took, or None where it was not measured."""
    text = SPEED.read_text()
    found = {}
    for command, processor, _, units, gigabytes in ROW.findall(text):
        is_measured = processor != NOT_MEASURED
        found[command] = Figures(float(processor), float(units), float(gigabytes or 0)) if is_measured else None
    for command, units, processor in GATE.findall(text):
        found[command] = Figures(float(processor), float(units))
    return found


def shown(figures):
    """The text of figures on a page, also of those that were not measured."""
    return figures.shown() if figures else NOT_MEASURED


def with_times(text):
    """The text of a page with the figures of its commands as they were measured."""
    figures = measured()
    return TIMED.sub(
        lambda it: f"{it['before']}{it['command']}{it['space']}# {shown(figures.get(it['command']))}"
        if it["command"] in figures
        else it[0],
        text,
    )


def wrong_times(text, figures):
    """The commands of a page that were not measured so."""
    for it in TIMED.finditer(text):
        if it["command"] not in figures:
            yield f"docs/SPEED.md does not have the time of `{it['command']}`"
        elif it["shown"] != shown(figures[it["command"]]):
            yield f"`{it['command']}` takes {shown(figures[it['command']])}, not {it['shown']}"


def other_times(page):
    """The times in the text of a page, which no script wrote."""
    text = page_text.prose_of(page)
    yield from (f"no script wrote the time “{found}”" for found in TIME.findall(text))
    known = DISK.findall(SPEED.read_text())
    yield from (f"docs/SPEED.md does not have {found}" for found in DISK.findall(text) if found not in known)


def wrong_figures(text):
    """The figures of marked tables and paragraphs that none of the pages named has."""
    for names, text in MARKED.findall(text):
        known = set().union(*(FIGURE.findall((ROOT / name).read_text()) for name in names.split()))
        for figure in FIGURE.findall(page_text.LINK.sub("", text)):
            if figure not in known:
                yield f"none of {names} has {figure}"


def faults(pages):
    """What is wrong in the times of the pages, each after the page's name."""
    figures, seen = measured(), set()
    for page in PAGES:
        text = page.read_text()
        seen |= {it["command"] for it in TIMED.finditer(text)}
        if page in pages:
            found = [*wrong_times(text, figures), *other_times(page), *wrong_figures(text)]
            yield from (f"{page.relative_to(ROOT)}: {fault}" for fault in found)
    yield from (f"README.md: the time of `{command}` is missing" for command in figures if command not in seen)
