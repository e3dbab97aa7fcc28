"""The headers of signed numbers: each call turns its values into those of a set without signs, in the same order.

A wrapper is written from the declaration of its export. The calls on arrays and text are in include/range_set/i64_arrays.h,
and those that the header defines over others are written from the headers for uint64_t.
"""
import re

from header_text import KINDS, WIDE_HEADERS, declarations, declared, header

FOLDER = "include/range_set"
SIGNED = {"i32": "u32", "i64": "u64", "i128": "u128"}
DECLARATION = re.compile(r"^((?:RSB_NODISCARD )?)([\w ]+?) rsb_u\d+_(\w+)\(([^)]*)\);", re.M)
ARRAYS = ("runs_in", "from_runs", "from_text", "from_text_at", "to_text")

FRAME = """/* Sets of {value}: the calls of range_set.h with {kind} in place of {unsigned}. They are only
 * tested, and call those: a value is turned into one of {unsigned_value} in the same order
 * (docs/DECISIONS.md, signed-by-order). What range_set.h says about a call holds here too, but the
 * least value is {least} and the greatest one {greatest}. A number of values (`n`, `len`,
 * and what `len` and `rank` return) has no sign. rsb_{kind}_to_text does not allocate. */
#ifndef RANGE_SET_{name}_H
#define RANGE_SET_{name}_H

#include "../range_set.h"

#ifdef __cplusplus
extern "C" {{
#endif

#include "signed.h"
#include "{kind}_value.h"

RSB_PRIVATE_HANDLE(rsb_{kind}, rsb_{unsigned});
RSB_PRIVATE_HANDLE(rsb_{kind}_sets, rsb_{unsigned}_sets);

typedef struct rsb_{kind}_run {{
    {value} first;
    {value} last;
}} rsb_{kind}_run;

RSB_INLINE rsb_{kind}_run rsb_private_{kind}_run_out(rsb_{unsigned}_run run) {{
    rsb_{kind}_run made = {{rsb_private_{kind}_out(run.first), rsb_private_{kind}_out(run.last)}};
    return made;
}}

{wrappers}
#include "{kind}_arrays.h"
#include "{kind}_many.h"
#include "{kind}_text.h"
#include "{kind}_walk.h"

RSB_NODISCARD RSB_INLINE uint32_t rsb_{kind}_to_text(
    const rsb_{kind} *set, char *buffer, size_t capacity, size_t *length) {{
    return rsb_private_{kind}_write(set, buffer, capacity, length, false);
}}

#ifdef __cplusplus
}}
#endif

#endif
"""


def wrapper(kind, declaration):
    """A call on signed numbers."""
    keeps, result, name, parameters = declaration.groups()
    unsigned, value = SIGNED[kind], KINDS[kind][0]
    taken, passed, place = [], [], None
    for parameter in parameters.split(", "):
        type_of, word = re.match(r"(.*?[ *])(\w+)$", parameter).groups()
        if re.match(rf"(const )?rsb_{unsigned}(_sets)? \*", type_of):
            taken.append(parameter.replace(unsigned, kind))
            passed.append(f"&{word}->rsb_private")
        elif type_of == f"rsb_{unsigned}_run *" or (type_of == f"{KINDS[unsigned][0]} *" and word != "reason"):
            taken.append(f"rsb_{kind}_run *{word}" if "_run" in type_of else f"{value} *{word}")
            place = (type_of[:-2], word, "run_out" if "_run" in type_of else "out")
            passed.append("&found")
        elif type_of.strip() == KINDS[unsigned][0] and word not in ("n", "len"):
            taken.append(f"{value} {word}")
            passed.append(f"rsb_private_{kind}_in({word})")
        else:
            taken.append(parameter)
            passed.append(word)
    call = f"rsb_{unsigned}_{name}({', '.join(passed)})"
    head = f"{keeps}RSB_INLINE {result} rsb_{kind}_{name}({', '.join(taken)}) {{"
    if place is None:
        return f"{head}\n    {'' if result == 'void' else 'return '}{call};\n}}\n"
    stored = f"*{place[1]} = rsb_private_{kind}_{place[2]}(found);"
    lines = [f"{place[0]} found;", f"bool is = {call};"]
    lines += [stored] if name == "run_or_gap" else ["if (is) {", f"    {stored}", "}"]
    return "\n".join([head, *(f"    {line}" for line in [*lines, "return is;"]), "}"]) + "\n"


def named(text, kind):
    """The text for a kind of signed number of one for int64_t."""
    value, _, _, next_to, _, equal = KINDS[kind]
    unsigned = SIGNED[kind]
    text = text.replace("run.last == last", equal.format("run.last", "last")).replace("run.last + 1", next_to.format("run.last"))
    text = text.replace("&scan, 64,", f"&scan, {kind[1:]},").replace("uint64_t", KINDS[unsigned][0]).replace("int64_t", value)
    return text.replace("INT64", f"INT{kind[1:]}").replace("i64", kind).replace("I64", kind.upper()).replace("u64", unsigned)


def signed_headers(text, read):
    """The text of each header of signed numbers that is written from others, by its path."""
    written = {}
    for kind, unsigned in SIGNED.items():
        lines = declarations(text) if unsigned == "u64" else declared(text, unsigned)
        lines += "".join(line for line in read(f"{FOLDER}/bytes.h").splitlines(True) if f" rsb_{unsigned}_" in line)
        wrappers = [wrapper(kind, found) for found in DECLARATION.finditer(lines) if found[3] not in ARRAYS]
        value, least, greatest, *_ = KINDS[kind]
        written[f"{FOLDER}/{kind}.h"] = FRAME.format(kind=kind, unsigned=unsigned, name=kind.upper(), value=value, least=least,
            unsigned_value=KINDS[unsigned][0], greatest=greatest, wrappers="\n".join(wrappers))
        for place in WIDE_HEADERS:
            if not place.endswith("_same.h"):
                written[place.replace("u64", kind)] = header(read(place), kind).replace("range_set.h", f"{kind}.h")
        for part in ("arrays", "value"):
            if kind != "i64" and (kind, part) != ("i128", "value"):
                written[f"{FOLDER}/{kind}_{part}.h"] = named(read(f"{FOLDER}/i64_{part}.h"), kind)
    return written
