"""The drawing of a set in a notebook: its runs on a line, with the ends written."""

from __future__ import annotations

from typing import TYPE_CHECKING, Any, Iterator, Tuple
from xml.sax.saxutils import escape

if TYPE_CHECKING:
    from ._reads import Reads

WIDTH = 640
MARGIN = 20
LINE = WIDTH - 2 * MARGIN
MOST_LABELS = 6

PICTURE = f"""\
<svg xmlns="http://www.w3.org/2000/svg" width="{WIDTH}" height="64" viewBox="0 0 {WIDTH} 64" role="img">
<title>{{title}}</title>
<line x1="{MARGIN}" y1="26" x2="{WIDTH - MARGIN}" y2="26" stroke="gray"/>
{{parts}}
</svg>"""
BOX = '<rect x="{x:.1f}" y="16" width="{width:.1f}" height="20" rx="2" fill="steelblue"><title>{text}</title></rect>'
LABEL = '<text x="{x:.1f}" y="{y}" font-family="sans-serif" font-size="11" text-anchor="{anchor}">{text}</text>'


def boxes(of: Reads[Any, Any, Any], end: int) -> Iterator[Tuple[int, int]]:
    """Yields the ranks of the first and the last value of each box, which is a run or a column of several runs.

    So it takes two look-ups for each column at most. `end` is the rank of the greatest member.
    """
    found, step = of._next_ranks(0), 0
    at = 0
    while found is not None:
        first, last = max(found[0], at), found[1]
        step = step or max(1, (end - first + 1) // LINE)
        more = of._next_ranks(last + 1)
        if more is not None and more[0] - first < step:
            last = min(first + step - 1, end)
        yield first, last
        at = last + 1
        found = of._next_ranks(at)


def text_of(of: Reads[Any, Any, Any], first: Any, last: Any) -> str:
    """Returns the text of the ends of a run, or of its only value."""
    write = of.element._text
    return escape(write(first) if first == last else f"{write(first)}..={write(last)}")


def labels(of: Reads[Any, Any, Any]) -> Iterator[Tuple[Any, Any]]:
    """Yields the ends of each run if there are few, and otherwise each end of the whole set."""
    if of._run_count() <= MOST_LABELS:
        for first, last in of.runs():
            yield first, last
    else:
        yield of.first(), of.first()
        yield of.last(), of.last()


def picture(of: Reads[Any, Any, Any]) -> str:
    """Returns the picture as SVG. Its line goes from the least member to the greatest one."""
    if not of:
        text = LABEL.format(x=WIDTH / 2, y=54, anchor="middle", text="the empty set")
        return PICTURE.format(title="the empty set", parts=text)
    number, value, base = of.element.rank, of.element.value, of.element.rank(of.element.least)
    least, greatest = number(of.first()) - base, number(of.last()) - base
    scale, parts = LINE / (greatest - least + 1), []
    for first, last in boxes(of, greatest):
        x, width = MARGIN + (first - least) * scale, max(1.0, (last - first + 1) * scale)
        parts.append(BOX.format(x=x, width=width, text=text_of(of, value(first + base), value(last + base))))
    for at, (first, last) in enumerate(labels(of)):
        x = MARGIN + ((number(first) + number(last) + 1) / 2 - base - least) * scale
        anchor = "start" if x < WIDTH / 4 else "end" if x > 3 * WIDTH / 4 else "middle"
        parts.append(LABEL.format(x=x, y=54 if at % 2 == 0 else 11, anchor=anchor, text=text_of(of, first, last)))
    title = f"{of._run_count()} runs, {of.count()} members"
    return PICTURE.format(title=title, parts="\n".join(parts))
