"""The calls of 128 bits as the tests make them: with numbers of the compiler for values."""
import re

from header_text import declared
from signed_text import DECLARATION

WIDE_CALLS = "tools/c/wide_calls.h"
INLINE = re.compile(r"^((?:RSB_NODISCARD )?)RSB_INLINE ([\w ]+?) rsb_[iu]128_(\w+)\(\s*([^)]*?)\) \{", re.M)

FRAME = """/* The calls on sets of 128 bits with numbers of the compiler for values. A pointer to a number is one to a value, since both lie
 * in memory alike on a machine that stores the low word first. */
#ifndef WIDE_CALLS_H
#define WIDE_CALLS_H

#if SIGNED
{signed}
#else
{unsigned}
#endif

#endif
"""


def wide_call(kind, found):
    """A call with numbers for values."""
    keeps, result, name, parameters = found.groups()
    taken, passed = [], []
    for parameter in re.split(r",\s+", parameters):
        type_of, word = re.match(r"(.*?[ *])(\w+)$", parameter).groups()
        if type_of.strip() == f"rsb_{kind}_value":
            taken.append(f"number {word}")
            passed.append(f"rsb_{kind}_from({word})")
        elif type_of.strip() == "rsb_u128_value":
            taken.append(f"plain {word}")
            passed.append(f"rsb_u128_from({word})")
        elif type_of in (f"rsb_{kind}_value *", f"rsb_{kind}_run *", f"const rsb_{kind}_run *"):
            taken.append(type_of.replace(f"rsb_{kind}_value", "number").replace(f"rsb_{kind}_run", "run_t") + word)
            passed.append(f"({type_of.strip()}){word}")
        else:
            taken.append(parameter)
            passed.append(word)
    does = "" if result == "void" else "return "
    return (f"{keeps}RSB_INLINE {result} wide_{kind}_{name}({', '.join(taken)}) {{\n"
        f"    {does}rsb_{kind}_{name}({', '.join(passed)});\n}}\n")


def wide_calls(declarations, headers):
    """The text of that file, from the declarations and the headers that are written."""
    parts = {}
    for kind in ("u128", "i128"):
        found = list(DECLARATION.finditer(declared(declarations, kind))) if kind == "u128" else []
        for place, text in headers.items():
            if re.search(rf"/{kind}(_many|_text|_walk|_arrays)?\.h$", place):
                found += INLINE.finditer(text)
        parts[kind] = "\n".join(wide_call(kind, each) for each in found)
    return FRAME.format(signed=parts["i128"], unsigned=parts["u128"])
