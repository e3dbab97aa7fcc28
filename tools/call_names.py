"""The table of calls (docs/CALLS.md) beside the sources of each language: each name in a column is declared there, and each
call for C is in its column.
"""
import re
from pathlib import Path

ROOT = Path(__file__).resolve().parent.parent
PAGE = ROOT / "docs" / "CALLS.md"
LANGUAGES = ("C", "C++", "Python", "Rust", "Rattle")
# Names that a language or its standard library gives.
GIVEN = {
    "C": {"RSB_EMPTY"},
    "Python": {"in"},
    "Rust": {"drop", "clone", "cmp", "from_str", "to_string"},
    "Rattle": {"drop", "clone", "cmp", "to_string"},
}


def text_of(*patterns):
    """The texts of all files of some patterns, as one."""
    return "\n".join(path.read_text() for pattern in patterns for path in sorted(ROOT.glob(pattern)))


def c_calls():
    """The calls for C, without the prefix of their width."""
    headers = text_of("include/range_set.h", "include/range_set/u64_*.h", "include/range_set/bytes.h")
    return set(re.findall(r"\brsb_u64_(\w+)\(", headers))


def declared():
    """The names that each language declares."""
    words = {
        "C": c_calls(),
        "C++": set(re.findall(r"\b(\w+)\(", text_of("include/range_set.hpp", "include/range_set/*.hpp"))),
        "Python": set(re.findall(r"\bdef (\w+)\(", text_of("python/range_set/*.py*"))),
        "Rust": set(re.findall(r"\bfn (\w+)", text_of("rust/src/**/*.rs"))),
        "Rattle": set(re.findall(r"\bfn (\w+)", text_of(*(f"crates/{it}/src/**/*.rt" for it in ("range_set_blaze", "range_set_bytes"))))),
    }
    return {language: words[language] | GIVEN.get(language, set()) for language in LANGUAGES}


def cells():
    """The names of each language in the table, with the line where each is."""
    for number, line in enumerate(PAGE.read_text().splitlines(), 1):
        columns = [column.strip() for column in re.split(r"(?<!\\)\|", line)[2:-1]]
        if len(columns) == len(LANGUAGES):
            for language, column in zip(LANGUAGES, columns):
                yield from ((language, name, number) for name in re.findall(r"`(\w+)`", column))


def faults():
    """A line for each name that its language does not declare, and for each call for C that the table lacks."""
    known, named = declared(), set()
    for language, name, number in cells():
        named.add((language, name))
        if name not in known[language]:
            yield f"docs/CALLS.md:{number}: {language} has no {name}"
    for name in sorted(c_calls()):
        if ("C", name) not in named:
            yield f"docs/CALLS.md: no row has {name} of C"
