"""Checks of the text of pages, which take no time.

Links lead to files and headings that exist, each decision is cited from what it explains, and no sentence is longer
than 40 words. page_names.py checks the names.
"""
import re
import subprocess
from pathlib import Path

ROOT = Path(__file__).resolve().parent.parent
DECISIONS = "docs/DECISIONS.md"
LONGEST = 40

# How a sentence begins that may be longer.
MAY_BE_LONG = ("For every element type that keeps Integer's laws, each set after any list of calls",)

FENCED = re.compile(r"^ *```.*?^ *```$", re.M | re.S)
COMMENT = re.compile(r"<!--.*?-->", re.S)
LINK = re.compile(r"\[[^\]]*\]\(([^)\s]+)\)")
CODE = re.compile(r"`([^`]+)`")
END_OF_SENTENCE = re.compile(r"(?<=[.!?])[\"”')]*\s+(?=[\"“'(`*\[]*[A-Z0-9`])")
ROW = re.compile(r"^\| ([a-z0-9-]+) \|", re.M)


def tracked_files():
    """The names of the files that git knows."""
    listed = subprocess.run(["git", "ls-files"], cwd=ROOT, check=True, capture_output=True, text=True)
    return listed.stdout.split()


def prose_of(page):
    """The text of a page without its blocks of code and its comments, on the same lines."""
    text = page.read_text()
    for left_out in (FENCED, COMMENT):
        text = left_out.sub(lambda found: "\n" * found.group().count("\n"), text)
    return text


def anchors_of(page):
    """The anchors of the headings of a page."""
    headings = re.findall(r"^#+ (.*)$", FENCED.sub("", page.read_text()), re.M)
    return {re.sub(r"[^\w\- ]", "", heading).strip().lower().replace(" ", "-") for heading in headings}


def broken_links(page):
    """The links of a page that lead nowhere in the repository."""
    for target in LINK.findall(prose_of(page)):
        if re.match(r"[a-z]+:", target):
            continue
        name, _, anchor = target.partition("#")
        file = (page.parent / name).resolve() if name else page
        if not file.exists() or (anchor and file.suffix == ".md" and anchor not in anchors_of(file)):
            yield f"the link {target} leads nowhere"


def uncited_decisions(files):
    """The decisions that no other file cites by name, on a line with the word DECISIONS."""
    lines = []
    for name in files:
        if name != DECISIONS and Path(name).suffix != ".edit":
            text = (ROOT / name).read_text(errors="ignore")
            lines += [line for line in text.splitlines() if "DECISIONS" in line]
    for name in ROW.findall((ROOT / DECISIONS).read_text()):
        if not any(re.search(rf"(?<![\w-]){name}(?![\w-])", line) for line in lines):
            yield f"no file cites the decision {name}"


def paragraphs_of(page):
    """The paragraphs, items and cells of a page."""
    for line in prose_of(page).splitlines():
        text = re.sub(r"^[\s>#*-]*(\d+\. )?", "", line)
        yield from (re.split(r"(?<!\\)\|", text) if line.startswith("|") else [text])


def long_sentences(page):
    """The sentences of a page that are longer than the longest one allowed."""
    for text in paragraphs_of(page):
        for sentence in END_OF_SENTENCE.split(text.strip()):
            words = len(CODE.sub("code", LINK.sub("link", sentence)).split())
            if words > LONGEST and not sentence.startswith(MAY_BE_LONG):
                yield f"a sentence of {words} words: {sentence[:60]}…"


def faults(pages):
    """What is wrong in the text of the pages, each after the page's name."""
    files = tracked_files()
    for page in pages:
        name = page.relative_to(ROOT)
        found = [*broken_links(page), *long_sentences(page)]
        yield from (f"{name}: {fault}" for fault in found)
        if str(name) == DECISIONS:
            yield from (f"{name}: {fault}" for fault in uncited_decisions(files))
