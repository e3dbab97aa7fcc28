"""What the crates name: their functions and ghost members with the labels of their clauses, and the definitions of
their specs with their fields. It reads the layout that `rt fmt` leaves.
"""
import re
from dataclasses import dataclass, field
from functools import lru_cache
from pathlib import Path

ROOT = Path(__file__).resolve().parent.parent
CRATES = ROOT / "crates"

WORD = re.compile(r"[^\W\d]\w*(?:-\w+)*")
AROUND = re.compile(r"(?:pub(?:\(\w+\))? )?(?:unsafe )?(?:impl|trait)\b")
MEMBER = re.compile(r' *(?:pub(?:\(\w+\))? )?(?:(?:const|final|unsafe|extern "C") )*(?:fn|ghost) (?!use )(\w+)')
LABEL = re.compile(r"\b(?:ensures|requires)\s+(\w+)\s*\{")
DEFINITION = re.compile(r" *(?:(?:abbrev|unfoldable|pub|settled) )+(record |data )?([^\W\d]\w*(?:-\w+)*)")
FIELD = re.compile(r" +(?:pub )?(\w+(?:, \w+)*) :")
IMPORT = re.compile(r"use Rattle\.(\w+)\.specs\.((?:laws\.)?\w+)\.\{([^}]*)\}")
EXPORT = re.compile(r"^pub use Rattle\.(\w+)\.specs\.((?:laws\.)?\w+)(?: as (\w+))?$", re.M)


@dataclass
class Member:
    """A function, ghost member or `impl`: its name, its file, its crate, the type and the trait that it is of, and its
    text."""

    name: str
    path: Path
    crate: str
    around: set
    text: str = ""

    @property
    def labels(self):
        return set(LABEL.findall(self.text))


@dataclass
class Definition:
    """A definition of a module of specs: the fields or cases that it has, and the words in it."""

    fields: set = field(default_factory=set)
    words: set = field(default_factory=set)


@lru_cache(maxsize=None)
def uses():
    """Each crate of crates.txt, in its order, with what it uses."""
    rows = re.findall(r"^(\w+)(?: staticlib)?:(.*)$", (ROOT / "crates.txt").read_text(), re.M)
    return {crate: used.split() for crate, used in rows}


def with_those_below(crates):
    """Some crates, and the crates of this repository that they use, directly or not."""
    found, todo = set(), list(crates)
    while todo:
        crate = todo.pop()
        if crate in uses() and crate not in found:
            found.add(crate)
            todo += uses()[crate]
    return found


def without_generics(text):
    """A text without what is between angle brackets."""
    shorter = re.sub(r"<[^<>]*>", "", text)
    return text if shorter == text else without_generics(shorter)


def type_and_trait(lines):
    """The type and the trait of an `impl`, or the trait that is declared, from the first of these lines on."""
    head = ""
    for line in lines:
        head += " " + line
        if line.endswith(("{", "{}")) or " where" in line:
            break
    plain = " ".join(re.sub(r"'\w+|\w+::|\bdyn\b|\bmut\b", "", without_generics(head.replace("->", ""))).split())
    declared = re.search(r"\btrait (\w+)", plain)
    found = declared or re.search(r"\bimpl (?:(\w+) for )?\W*(\w+)", plain)
    return {word for word in found.groups() if word} if found else set()


def members_of_file(path):
    """The functions, ghost members and `impl`s of a source file."""
    found, around, lines = [], set(), path.read_text().splitlines()
    crate = path.relative_to(CRATES).parts[0]
    for number, line in enumerate(lines):
        if AROUND.match(line):
            around = type_and_trait(lines[number:])
            found.append(Member("impl", path, crate, around))
        elif line == "}":
            around = set()
        member = MEMBER.match(line)
        if member:
            found.append(Member(member.group(1), path, crate, around))
        if found:
            found[-1].text += line + "\n"
    return found


@lru_cache(maxsize=None)
def members():
    """The functions and ghost members of all crates, by name."""
    found = {}
    for path in sorted(CRATES.glob("*/src/**/*.rt")):
        for member in members_of_file(path):
            found.setdefault(member.name, []).append(member)
    return found


@lru_cache(maxsize=None)
def members_of_places():
    """The functions and ghost members of all crates, by the types, traits, modules and crates that they are in."""
    found = {}
    for member in (it for many in members().values() for it in many):
        for place in member.around | {member.path.stem, member.crate}:
            found.setdefault(place, []).append(member)
    return found


def imports_of(text):
    """What a file imports from specs: each name with its crate and module."""
    found = {}
    for crate, module, names in IMPORT.findall(text):
        found |= {name: (crate, module) for name in WORD.findall(names)}
    return found


@lru_cache(maxsize=None)
def module(crate, name):
    """The definitions of a module of specs, such as `Runs` or `laws.Stream`, and what it imports, or None if there is
    no such module."""
    specs = CRATES / crate / "specs"
    path, root = specs / f"{name.replace('.', '/')}.antt", specs / ("laws.antt" if name.startswith("laws.") else "Lib.antt")
    if path.exists():
        text = path.read_text()
        return definitions_of(text), imports_of(text)
    exports = EXPORT.findall(root.read_text()) if root.exists() else []
    return next((module(other, there) for other, there, alias in exports if name == (alias or there)), None)


def definitions_of(text):
    """The definitions in the text of a file of specs, by name."""
    found, open_one, has_fields = {}, Definition(), False
    for line in text.splitlines():
        if line.lstrip().startswith(("--", "use ")):
            continue
        begins, inner = DEFINITION.match(line), FIELD.match(line)
        if begins and not (has_fields and inner):
            open_one = found.setdefault(begins.group(2), Definition())
            has_fields = begins.group(1) is not None
        elif has_fields and inner:
            open_one.fields |= set(inner.group(1).split(", "))
        open_one.words |= set(WORD.findall(line))
    return found


@lru_cache(maxsize=None)
def definitions():
    """All definitions of specs: each name with the places where it is defined."""
    found = {}
    for path in sorted(CRATES.glob("*/specs/**/*.antt")):
        crate, _, *parts = path.relative_to(CRATES).with_suffix("").parts
        for name in module(crate, ".".join(parts))[0]:
            found.setdefault(name, []).append((crate, ".".join(parts)))
    return found


@lru_cache(maxsize=None)
def words():
    """The words of all source files, specs and lemmas."""
    texts = [path.read_text() for part in ("src", "specs") for path in CRATES.glob(f"*/{part}/**/*.*t")]
    return {word for text in texts for word in WORD.findall(text)}


@lru_cache(maxsize=None)
def facts_of(crate, name, word):
    """The fields of the records that a definition cites, directly or not."""
    fields, seen, todo = set(), set(), [(crate, name, word)]
    while todo:
        crate, name, word = at = todo.pop()
        found = module(crate, name)
        if at in seen or not found or word not in found[0]:
            continue
        seen.add(at)
        definitions, imports = found
        fields |= definitions[word].fields
        for other in definitions[word].words:
            todo += [(crate, name, other)] if other in definitions else []
            todo += [(*imports[other], other)] if other in imports else []
    return fields


@lru_cache(maxsize=None)
def imports_of_file(path):
    """What a source file imports from specs."""
    return imports_of(path.read_text())


def facts(member):
    """The fields of the records that the text of a member cites, directly or not."""
    imports = imports_of_file(member.path)
    cited = set(WORD.findall(member.text)) & set(imports)
    return {fact for word in cited for fact in facts_of(*imports[word], word)}


@lru_cache(maxsize=None)
def exported(stem):
    """The names that the files of a name re-export."""
    texts = [path.read_text() for path in CRATES.glob(f"*/src/**/{stem}.rt")]
    lists = [names for text in texts for names in re.findall(r"^pub use ([^;]*);", text, re.M | re.S)]
    return {word for names in lists for word in WORD.findall(names)}


def citation_faults():
    """A line for each file that cites a crate which its own crate does not list in crates.txt."""
    for path in sorted(CRATES.glob("*/*/**/*.*t")):
        crate, part = path.relative_to(CRATES).parts[:2]
        if part not in ("src", "specs", "proofs") or crate not in uses():
            continue
        cited = set(re.findall(r"\bRattle\.(\w+)\.", path.read_text())) & set(uses())
        for other in sorted(cited - {crate, *uses()[crate]}):
            yield f"{path.relative_to(ROOT)}: cites {other}, which crates.txt does not list for {crate}"
