"""Checks of the names in pages, which take seconds.

Paths: a path in back ticks is relative to the root, to `crates/`, or to the folder or the `src/` of a crate that a
heading above it names. That of a test may be relative to the `src/` of a test crate. A file name alone is that of a
file in a crate that a heading names, or of any file if none names one.

Clauses: in PROVED.md and TESTED.md, labels follow a call and a colon. Each is that of a clause of such a call, the name of a call or
a ghost member of such a type or trait, a trait that it implements, or a field of a record that the clauses cite. Names
without a colon are those of calls, or labels of calls that the row or the row above names. What is in parentheses is
looked for only as a word. The text of a link to a source file has names of that file, and labels may follow.

Definitions: a list of MODEL.md or LOOKAHEAD.md begins with their module. A name before the colon of an item is defined in that module,
or in one that the item names in parentheses.

Crates: ARCHITECTURE.md has each crate of crates.txt in its first table, with its lines of code and what it uses, in its
picture, and in the part that describes crates. The lines there are right to a hundred or a tenth, so ordinary edits need
no update; `tools/documents --lines` writes them anew. PROOFS.md names each crate, and lists the subjects of its lemmas under its heading.
"""
import re
from functools import lru_cache
from pathlib import Path

import page_text
import source_names

ROOT = Path(__file__).resolve().parent.parent
CRATES = ROOT / "crates"

CODE = re.compile(r"`([^`]+)`")
PARENTHESES = re.compile(r"\([^()]*\)")
HEADING = re.compile(r"^(#+) (.*)$")
PATH = re.compile(r"^[\w.*-]+(/[\w.*-]+)*/?$")
SUFFIXES = {".antt", ".cpp", ".edit", ".h", ".hpp", ".md", ".py", ".rs", ".rt", ".txt"}
BARE_SUFFIXES = {".antt", ".edit", ".rt"}
FOLDERS = {".ci", "bench", "crates", "docs", "examples", "include", "python", "rust", "tools"}
PARTS = {"src", "specs", "proofs", "must-fail", "mutants"}
# Folders that every library has.
PARTS_OF_ALL = {"src/", "specs/", "proofs/", "proofs/lemmas/", "lemmas/"}
# The crate of a reader, and what builds make, which the repository does not have.
ELSEWHERE = re.compile(r"^crates/app\b|(^|/)out/")
CALL = re.compile(r"^&?[^\W\d]\w*(::[^\W\d]\w*)*$")
LINKED = re.compile(r"\[([^\]]*`[^\]]*)\]\(([^)\s#]+\.(?:rt|antt))\)((?:: (?:`\w+`(?:, |, and | and )?)+)?)")
APPLIED = re.compile(r"^[\w -]+$")
NAME = re.compile(r"^[^\W\d]\w*(-\w+)*$")
# A row of ARCHITECTURE.md's first table: a crate, what it has, its lines of code, and what it uses.
ROW_OF_CRATE = re.compile(r"^\| `(\w+)` \|([^|]*)\| ([\d,]+) \|([^|]*)\|$", re.M)


def sections(text):
    """Each line of a page without code, with the crates that the headings above it name."""
    headings = {}
    for number, line in enumerate(text.splitlines(), 1):
        heading = HEADING.match(line)
        if heading:
            level = len(heading.group(1))
            headings = {it: names for it, names in headings.items() if it < level}
            headings[level] = [it for it in CODE.findall(heading.group(2)) if it in source_names.uses()]
        yield number, line, [crate for names in headings.values() for crate in names]


# ---- paths


def is_path(name):
    """Whether a text in back ticks is the name of a file or a folder of the repository."""
    first = name.split("/")[0]
    if not PATH.match(name) or ELSEWHERE.search(name) or name in PARTS_OF_ALL:
        return False
    if "/" not in name:
        return Path(name).suffix in BARE_SUFFIXES
    return Path(name).suffix in SUFFIXES or first in FOLDERS | PARTS | set(source_names.uses()) or name.endswith("/")


@lru_cache(maxsize=None)
def is_there(name, crates):
    """Whether a path is that of a file or a folder, below headings that name some crates."""
    name = name.replace("NAME", "*")
    homes = [CRATES / crate for crate in crates]
    if "/" not in name:
        return any(any(home.rglob(name)) for home in homes or [CRATES])
    tests = list(CRATES.glob("test_*/src"))
    starts = [ROOT, CRATES, *homes, *(home / "src" for home in homes), *tests]
    return any(any(start.glob(name.rstrip("/"))) for start in starts)


def missing_paths(text):
    """The paths in a page that lead nowhere."""
    for number, line, crates in sections(text):
        for name in CODE.findall(line):
            if is_path(name) and not is_there(name, tuple(crates)):
                yield f"{number}: no file or folder is {name}"


# ---- clauses


def owners(name, crates):
    """The members that the name of a call, a type, a trait or a module stands for: those of the crates of the section,
    and of the crates below if these have none."""
    *path, last = name.lstrip("&").split("::")
    if last[:1].isupper() or not source_names.members().get(last):
        found = source_names.members_of_places().get(last, [])
        near = source_names.with_those_below(crates)
    else:
        found = source_names.members()[last]
        is_near = any(it.crate in crates for it in found)
        near = crates if is_near else source_names.with_those_below(crates)
    return [it for it in found if it.crate in near and (not path or is_in(it, path[-1], last))]


@lru_cache(maxsize=None)
def all_members():
    """The members of all crates."""
    return [member for many in source_names.members().values() for member in many]


def is_in(member, place, name):
    """Whether a member is of a type, a trait, a module or a crate of that name, or re-exported there."""
    return place in member.around | {member.crate, member.path.stem} or name in source_names.exported(place)


@lru_cache(maxsize=None)
def labels_of(name, crates):
    """The labels that a call, a type, a trait, a module or a definition may have, or None if there is none such."""
    found = owners(name, crates)
    places = source_names.definitions().get(name, [])
    if not found and not places:
        return None
    return known_labels(found) | {fact for place in places for fact in source_names.facts_of(*place, name)}


def known_labels(found):
    """The labels that a call may have, from its members."""
    known = set()
    for member in found:
        known |= member.labels | member.around | {member.name} | source_names.facts(member)
    return known


@lru_cache(maxsize=None)
def labels_in(crates):
    """The labels of all calls of some crates."""
    found = [it for it in all_members() if it.crate in crates]
    return {label for member in found for label in member.labels | source_names.facts(member)}


def segments(cell):
    """The calls and the labels of each part of a cell, and what is in its parentheses."""
    for part in cell.split(";"):
        inner = [name for text in PARENTHESES.findall(part) for name in CODE.findall(text)]
        calls, _, labels = PARENTHESES.sub("", part).partition(": ")
        # "All calls except .." are not named.
        yield [] if " except " in calls else CODE.findall(calls), CODE.findall(labels), inner


def rows_of_contracts(text):
    """The rows of the tables of contracts of a page: what stands before the last cell, that cell, and the crates."""
    for number, line, crates in sections(text):
        if line.startswith("|") and not re.match(r"\|[-|\s]*$|.*\| Contracts \|$", line):
            *before, cell, _ = re.split(r"(?<!\\)\|", line)
            yield number, " ".join(before), cell, tuple(crates or source_names.uses())


def calls_of(names):
    """The names that may be those of calls, types, traits or modules."""
    return [name for name in names if CALL.match(name) and not is_path(name)]


def wrong_names(calls, labels, inner, crates):
    """The calls and labels of a part of a cell that no source has, where labels follow a colon."""
    for name in calls_of([*inner, *calls]):
        if name.lstrip("&").split("::")[-1] not in source_names.words():
            yield f"no source has {name}"
    if not labels:
        return
    known = {name: labels_of(name, crates) for name in calls_of(calls)}
    yield from (f"no call is {name}" for name, found in known.items() if found is None)
    every = set().union(*(found or set() for found in known.values())) if known else labels_in(crates)
    for label in labels:
        if NAME.match(label) and label not in every:
            yield f"{label} is no label of {', '.join(known) or 'a call of the section'}"


def wrong_alone(names, crates, around):
    """The names without labels that are neither calls nor labels of the calls that are named around them."""
    known = set().union(*(labels_of(name, crates) or set() for name in around)) or labels_in(crates)
    for name in calls_of(names):
        # A type of std or of the kit has no labels here.
        first = name.split("::")[0] if "::" in name else ""
        is_ours = not first or labels_of(first, tuple(source_names.uses())) is not None
        if is_ours and name not in known and labels_of(name, tuple(source_names.uses())) is None:
            yield f"{name} is no call, and no label of {', '.join(around) or 'a call of the section'}"


def wrong_labels(text):
    """The calls and labels in the tables of a page that no source has."""
    above = []
    for number, claim, cell, crates in rows_of_contracts(text):
        parts = list(segments(cell))
        named = calls_of(CODE.findall(claim) + [name for calls, labels, _ in parts if labels for name in calls])
        for calls, labels, inner in parts:
            yield from (f"{number}: {fault}" for fault in wrong_names(calls, labels, inner, crates))
            if not labels:
                yield from (f"{number}: {fault}" for fault in wrong_alone(calls, crates, named or above))
        above = named or calls_of(CODE.findall(PARENTHESES.sub("", cell))) or above


def wrong_links(page, text):
    """The names in links to sources that the file does not have, and the labels after them that they do not have."""
    for names, target, labels in LINKED.findall(text):
        path = (page.parent / target).resolve()
        lasts = [name.split("::")[-1] for name in CODE.findall(names)]
        if not path.is_file():
            continue
        known = set(source_names.WORD.findall(path.read_text()))
        yield from (f"{target} has no {name}" for name in lasts if NAME.match(name) and name not in known)
        found = [it for it in all_members() if it.path == path and set(lasts) & (it.around | {it.name})]
        for label in CODE.findall(labels):
            if label not in known_labels(found):
                yield f"{label} is no label of {', '.join(lasts)} in {target}"


# ---- definitions


def lead_of(item):
    """The names before the colon of an item of a list, and what is in back ticks in parentheses there."""
    lead = re.split(r":(?= |$)(?![^()]*\))", item)[0]
    inner = " ".join(PARENTHESES.findall(lead))
    names = [name for name in CODE.findall(PARENTHESES.sub("", lead)) if APPLIED.match(name)]
    return [name.split()[0] for name in names], CODE.findall(inner)


def place_of(name, places):
    """The crate and the module of a name such as `Rattle.rsb_many.specs.Many`, or `Many` for one named before."""
    found = re.match(r"Rattle\.(\w+)\.specs\.((?:laws\.)?\w+)$", name)
    return found.groups() if found else places.get(name)


def undefined_names(item, current, places):
    """The names in the lead of an item of MODEL.md that its modules do not define."""
    names, inner = lead_of(item)
    here = [place for place in [current, *(place_of(name, places) for name in inner)] if place]
    defined = set().union(*((source_names.module(*place) or [{}])[0] for place in here))
    for name in names:
        if NAME.match(name) and here and name not in defined:
            yield f"{name} is not defined in {' or '.join('.'.join(place) for place in here)}"


def wrong_modules(text):
    """The definitions of MODEL.md that are not in their modules, and the names there that no source has."""
    current, places = None, {}
    for number, line, _ in sections(text):
        for name in CODE.findall(line):
            place = place_of(name, {})
            if place and place[0] != "std":
                places[place[1]] = place
                if not source_names.module(*place):
                    yield f"{number}: there is no module {name}"
        if line.startswith("`Rattle."):
            current = place_of(CODE.findall(line)[0], {})
        elif line and not line.startswith("- "):
            current = None
        elif line.startswith("- "):
            yield from (f"{number}: {fault}" for fault in undefined_names(line, current, places))
        for name in CODE.findall(line):
            word = name.split()[0]
            if NAME.match(word) and "-" not in word and word not in source_names.words():
                yield f"{number}: no source has {word}"


# ---- crates


def rows_of_crates(text):
    """The rows of ARCHITECTURE.md's first table: each crate with its lines of code and what it uses."""
    return {crate: (lines, CODE.findall(used)) for crate, _, lines, used in ROW_OF_CRATE.findall(text)}


@lru_cache(maxsize=None)
def lines_of_code(crate):
    """The number of lines of a crate's sources that are neither blank nor comments."""
    texts = [path.read_text() for path in (CRATES / crate / "src").rglob("*.rt")]
    lines = [line.strip() for text in texts for line in text.splitlines()]
    return sum(1 for line in lines if line and not line.startswith("//"))


def rounded(lines):
    """A number of lines to the nearest hundred, or to the nearest ten if it is below a hundred."""
    return round(lines, -2 if lines >= 100 else -1)


def is_about(written, lines):
    """Whether a number of lines in a page is right to a hundred or to a tenth."""
    return abs(int(written.replace(",", "")) - lines) <= max(100, lines / 10)


def with_lines(text):
    """The text of ARCHITECTURE.md with the lines of code of each crate."""
    return ROW_OF_CRATE.sub(
        lambda row: f"| `{row[1]}` |{row[2]}| {rounded(lines_of_code(row[1])):,} |{row[4]}|", text
    )


def wrong_architecture(whole, text):
    """The crates that ARCHITECTURE.md lacks or has with other uses, and the modules that no crate has."""
    rows = rows_of_crates(text)
    picture = re.search(r"^```text\n(.*?)^```$", whole, re.M | re.S).group(1)
    described = set(CODE.findall(text.partition("\n## The crates\n")[2]))
    for crate, used in source_names.uses().items():
        lines, listed = rows.get(crate, ("0", None))
        if listed != used:
            yield f"the table has {crate} with {listed}, and crates.txt with {used}"
        if not is_about(lines, lines_of_code(crate)):
            yield f"{crate} has {lines_of_code(crate)} lines of code, not {lines} (tools/documents --lines)"
        if not re.search(rf"\b{crate}\b", picture):
            yield f"the picture lacks {crate}"
        if crate not in described:
            yield f"no part describes {crate}"
    yield from (f"no crate is {crate}" for crate in rows if crate not in source_names.uses())
    for number, line, crates in sections(text):
        if crates and re.match(r"- (`[a-z]\w*`(, | and )?)+: ", line):
            for name in lead_of(line)[0]:
                if not is_there(f"{name}.rt", tuple(crates)):
                    yield f"{number}: no module is {name}"


def subjects_of(crate):
    """The subjects of the lemmas of a crate: the folders and files of `proofs/lemmas`."""
    return {path.stem for path in (CRATES / crate / "proofs" / "lemmas").glob("*.antt")}


def wrong_proofs(text):
    """The crates and subjects of lemmas that PROOFS.md lacks, and the subjects there that no crate has."""
    listed = {}
    for number, line, crates in sections(text):
        names = lead_of(line)[0] if line.startswith("- ") else []
        for crate in crates:
            listed.setdefault(crate, set()).update(names)
        known = set().union(*map(subjects_of, crates))
        yield from (f"{number}: no subject is {name}" for name in names if crates and name not in known)
    for crate in source_names.uses():
        if crate not in CODE.findall(text):
            yield f"{crate} is not named"
        for name in sorted(subjects_of(crate) - listed.get(crate, set())):
            yield f"the subject {name} of {crate} is not listed"


def faults_of(page):
    """What is wrong in the names of a page."""
    text = page_text.prose_of(page)
    yield from [*missing_paths(text), *wrong_links(page, text)]
    if page.name in ("PROVED.md", "TESTED.md"):
        yield from wrong_labels(text)
    if page.name in ("MODEL.md", "LOOKAHEAD.md"):
        yield from wrong_modules(text)
    if page.name == "ARCHITECTURE.md":
        yield from wrong_architecture(page.read_text(), text)
    if page.name == "PROOFS.md":
        yield from wrong_proofs(text)


def faults(pages):
    """What is wrong in the names of the pages, each after the page's name."""
    for page in pages:
        yield from (f"{page.relative_to(ROOT)}: {fault}" for fault in faults_of(page))
