"""The parts of the C header for other widths, from those for uint64_t."""
import re

HEADER = "include/range_set.h"
WIDE_HEADERS = tuple(f"include/range_set/u64_{part}.h" for part in ("many", "same", "text", "walk"))

# The declarations for uint64_t, and the places for the others.
SECTION = re.compile(r"/\* ---- Sets of uint64_t\. \*/\n(.*?#include \"range_set/u64_walk\.h\"\n)", re.S)
PLACE = re.compile(r"(/\* Written by tools/c/narrow: (u\d+) \*/\n).*?(/\* End \*/\n)", re.S)

# How values of each kind of number are written: the type, the least and the greatest value, and the values beside one.
KINDS = {
    "u32": ("uint32_t", "0", "UINT32_MAX", "{} + 1", "{} - 1", "{} == {}"),
    "u64": ("uint64_t", "0", "UINT64_MAX", "{} + 1", "{} - 1", "{} == {}"),
    "u128": ("rsb_u128_value", "RSB_U128(0, 0)", "RSB_U128_MAX", "rsb_u128_next({})", "rsb_u128_prev({})",
        "rsb_u128_compare({}, {}) == 0"),
    "i32": ("int32_t", "INT32_MIN", "INT32_MAX", "{} + 1", "{} - 1", "{} == {}"),
    "i64": ("int64_t", "INT64_MIN", "INT64_MAX", "{} + 1", "{} - 1", "{} == {}"),
    "i128": ("rsb_i128_value", "RSB_I128_MIN", "RSB_I128_MAX", "rsb_i128_next({})", "rsb_i128_prev({})",
        "rsb_i128_compare({}, {}) == 0"),
}


def header(text, kind):
    """The text for a kind of number of a header for uint64_t."""
    value, least, greatest, next_to, prev_to, equal = KINDS[kind]
    ends = {"0": least, "UINT64_MAX": greatest}
    text = re.sub(r"(block|run)\.(first|last) == (0|UINT64_MAX|last\b)",
        lambda found: equal.format(f"{found[1]}.{found[2]}", ends.get(found[3], found[3])), text)
    text = text.replace("run.last != run.first", f"!({equal.format('run.last', 'run.first')})" if "128" in kind else "run.last != run.first")
    text = re.sub(r"(block|run)\.last \+ 1", lambda found: next_to.format(f"{found[1]}.last"), text)
    text = re.sub(r"(block|run)\.first - 1", lambda found: prev_to.format(f"{found[1]}.first"), text)
    text = re.sub(r"(_(?:next_run|next_gap|runs_in)\(&?set, )0,", rf"\g<1>{least},", text)
    text = text.replace("or to 0 and UINT64_MAX", f"or to {least} and {greatest}").replace("UINT64_MAX", greatest)
    text = text.replace("UINT64_C(0)", least)
    return named(text, kind)


def named(text, kind):
    """A text with the names of a kind of number."""
    text = text.replace("every uint64_t", f"every {KINDS[kind][0].replace('rsb_', '')}")
    return text.replace("uint64_t", KINDS[kind][0]).replace("u64", kind).replace("U64", kind.upper())


def declarations(text):
    """The declarations of range_set.h for uint64_t, with no comments: a line each, or a whole struct."""
    section = SECTION.search(text)[1]
    section = re.sub(r"/\*.*?\*/\n?", "", section, flags=re.S)
    return re.sub(r"\n+", "\n", section).strip() + "\n"


def declared(text, kind):
    """The declarations for a kind of number."""
    lines = re.sub(r"typedef struct rsb_u64_count \{.*?\} rsb_u64_count;\n", "", declarations(text), flags=re.S)
    if kind == "u32":
        lines = lines.replace("rsb_u64_count", "WORD").replace("uint64_t n,", "WORD n,").replace("uint64_t len,", "WORD len,")
    lines = named(lines, kind).replace("WORD", "uint64_t")
    return re.sub(r"\n(typedef|#include \"range_set/\w+_many)", r"\n\n\1", lines)


def with_declarations(text):
    """The header with the declarations for each kind of number in their place."""
    return PLACE.sub(lambda place: f"{place[1]}{declared(text, place[2])}{place[3]}", text)
