"""The slips of tools/slips, which show that the messages in docs/GUIDE.md are what the checker says.

Each file is the root file of a crate over `range_set_blaze`. Its first lines have what `rt check` says, in which `..` is any
text. Each is in back ticks at the head of a row of the table of messages. Below a line such as

    // Write: let c = (&a | &b)?;

is the slip. With that text in its place, the crate is proved. A page shows what the checker says of a slip in a block of
text below a comment such as `<!-- refused: tools/slips/booking.rattle -->`.
"""
import re
from pathlib import Path

import own_crate

ROOT = Path(__file__).resolve().parent.parent
GUIDE = ROOT / "docs" / "GUIDE.md"
SLIPS = ROOT / "tools" / "slips"
LIBRARIES = "range_set_blaze"
TABLE = re.compile(r"^\| The checker says \| Write \|\n\|[-|]+\|\n((?:\|.*\n)+)", re.M)
SPAN = re.compile(r"`` (.+?) ``|`` ?(.+?) ?``|`(.+?)`")
# Messages for which no short file is known.
UNSHOWN = ("the borrow checker does not cover a function yet",)
SAYS = re.compile(r"^//! (?:The checker says|It also says): (.*)$", re.M)
CURE = re.compile(r"^( *)// Write: (.*)\n.*$", re.M)


def messages():
    """The message at the head of each row of the table."""
    rows = TABLE.search(GUIDE.read_text()).group(1).splitlines()
    cells = [re.split(r"(?<!\\)\|", row)[1].replace(r"\|", "|") for row in rows]
    return [next(filter(None, found.groups())) if (found := SPAN.search(cell)) else cell.strip() for cell in cells]


def slips():
    """What the checker says of each slip."""
    return {file: SAYS.findall(file.read_text()) for file in sorted(SLIPS.glob("*.rattle"))}


def quick_faults():
    """The rows of the table that no slip shows, and the slips that no row or page has."""
    said, rows = slips(), messages()
    shown = {message for many in said.values() for message in many}
    pages = [page.read_text() for page in (ROOT / "README.md", GUIDE)]
    for row in rows:
        if row not in shown and not row.startswith(UNSHOWN):
            yield f"docs/GUIDE.md: no slip shows the message {row}"
    for file, many in said.items():
        name = file.relative_to(ROOT)
        if not any(f"<!-- refused: {name} -->" in page for page in pages):
            yield from (f"{name}: no page has the message {message}" for message in many if message not in rows)


def holds(message, printed):
    """Whether a message is in what was printed, in which `..` in the message is any text of a line."""
    parts = [re.escape(part) for part in message.split("..")]
    return re.search(".*?".join(parts), printed) is not None


def printed_by(text, *words):
    """The exit status of a command of `rt` on a crate with this root file, and what it prints."""
    with own_crate.over(LIBRARIES) as app:
        own_crate.write_root(app, text)
        ran = own_crate.ran(app, *words)
    return ran.returncode, ran.stdout


def fault(file):
    """Why a slip is not refused with its message, or its cure is not proved, or None."""
    text = file.read_text()
    status, printed = printed_by(text, "check")
    if not status:
        return "it is proved"
    for message in slips()[file]:
        if not holds(message, printed):
            return f"the checker does not say {message!r}, but {printed[-400:]!r}"
    if CURE.search(text):
        status, printed = printed_by(CURE.sub(r"\1\2", text), "check")
        if status:
            return f"its cure is refused: {printed[-400:]!r}"
    return None


def lacking_line(file, words, lines):
    """The first of some lines that a command of `rt` does not print of a slip, in this order, or None. If the command
    succeeds, it is the first line."""
    status, printed = printed_by(file.read_text(), *words)
    rest = iter(line.strip() for line in printed.splitlines() if status)
    return next((line for line in lines if line.strip() and not any(line.strip() == other for other in rest)), None)
