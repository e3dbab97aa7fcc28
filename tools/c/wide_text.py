"""The sources of range_set_c for u128, from those for u64.

C has no number of 128 bits, so a value of an export is a struct of two words, `Value`, and a run has two of these
(`src/u128_values.rt`). An export turns its values into numbers first, and the rest of its body is that for u64. Its
clauses name the numbers: `value` becomes `number value`. A function that is no export has numbers and `Run`, as for u64.
"""
import re

LINE = 100

# What differs by more than names, before the exports are changed.
COUNT = re.compile(r"\n/// The number of members, .*", re.S)
OTHERS = (
    ("\nmod run;\n", "\npub(crate) mod run;\n"),
    ("//! Runs and numbers of members, as C sees them.", "//! Runs of numbers."),
    ("#[repr(C)]\n#[derive(Drop)]\npub struct Run", "#[derive(Drop)]\npub struct Run"),
    (" as u128", ""),
    ("result.low + 2 ^ 64 * result.high ≡", "total result ≡"),
    ("use super::run::Count;\n", ""),
    (", ◌+◌, ◌*◌, ◌^◌}", "}"),
    (", ◌+◌, ◌*◌", ""),
    ("Read 64 ", "Read 128 "),
    ("read 64 ", "read 128 "),
    ("UnexpectedAt 64 ", "UnexpectedAt 128 "),
    (" 64 (lit≤ tt)", " 128 (lit≤ tt)"),
    ("run.first..=run.last", "run.first.number()..=run.last.number()"),
    ("interval_of_run run = from_to run.first run.last", "interval_of_run run = from_to (number run.first) (number run.last)"),
)

EXPORT = re.compile(r'(pub extern "C" fn \w+\()(.*?)(\)(?: -> \w+)?)\n(.*?)\n\{\n(.*?)\n\}', re.S)
SIGNATURE = re.compile(r"^( *)((?:pub(?:\(\w+\))? )?(?:extern \"C\" )?fn [^(\n]*)\(([^()]*?),?\s*\)((?: -> [^\n{]*)?)(?= \{\n|\n)", re.M)
CLAUSE = re.compile(r"^    ensures .*?\}$(?=\n    ensures|\n\{|\n\n|\Z)", re.M | re.S)
OPERATORS = set("→≤<≡({+↔")


def widened(text, name):
    """The text for u128 of a text for u64, of a file with this name."""
    text = COUNT.sub("", text) if name.endswith("/run.rt") else text
    for narrow, wide in OTHERS:
        text = text.replace(narrow, wide)
    text = text.replace("u64", "u128").replace("U64", "U128").replace("2 ^ 64", "2 ^ 128")
    if name.endswith(".rt"):
        text = EXPORT.sub(exported, text)
        text = re.sub(r"&(mut )?(\[?)Run\b", r"&\1\2ValueRun", text)
        text = re.sub(r"\*(run|block|gap) = Run::of\(range\);", r"*\1 = ValueRun::of(Run::of(range));", text)
        text = imported(text)
        text = SIGNATURE.sub(laid_out, text)
    elif name.endswith("Runs.antt"):
        text = imported_by_spec(text)
    return text


def exported(match):
    """An export, with values for its numbers."""
    head, arguments, result, clauses, body = match.groups()
    pairs = [argument.strip().split(": ", 1) for argument in arguments.split(",") if argument.strip()]
    values = [name for name, kind in pairs if kind == "u128"]
    places = [name for name, kind in pairs if kind == "&mut u128"]
    arguments = ", ".join(f"{name}: {re.sub('u128', 'Value', kind)}" for name, kind in pairs)
    clauses = CLAUSE.sub(lambda clause: clause_of_numbers(clause[0], values, places), clauses)
    numbers = [f"    let {name} = {name}.{'length' if name in ('n', 'len') else 'number'}();\n" for name in values]
    for place in places:
        body = re.sub(rf"\*{place} = (\w+);", rf"*{place} = Value::of(\1);", body)
    body = re.sub(r"\*(run|block|gap) = found;", r"*\1 = ValueRun::of(found);", body)
    return f"{head}{arguments}{result}\n{clauses}\n{{\n{''.join(numbers)}{body}\n}}"


def clause_of_numbers(clause, values, places):
    """A clause that names the numbers of values."""
    label, braced = clause.split("{", 1)
    names = [rf"(?:{'|'.join(values)})"] if values else []
    names += [rf"{place}\.new" for place in places] + [r"(?:run|block|gap)\.new\.(?:first|last)"]
    if not re.search(r"\.new ≡ \w+\.old", braced):
        for name in names:
            braced = re.sub(rf"(?<![\w.])({name})(?![\w.])", r"⟪\1⟫", braced)
    tokens = re.split(r"(⟪[^⟫]*⟫)", braced)
    for at in range(1, len(tokens), 2):
        before, after = tokens[at - 1].rstrip()[-1:], tokens[at + 1].lstrip()[:1]
        first = before in OPERATORS or (before == "" and at == 1)
        number = f"number {tokens[at][1:-1]}"
        tokens[at] = number if first and after in OPERATORS | {")", "}"} else f"({number})"
    return "\n".join(map(wrapped, (label + "{" + "".join(tokens)).split("\n")))


def wrapped(line):
    """A line of a clause, or two if it is too long for one. The first ends where the fewest brackets are open."""
    if len(line) <= LINE:
        return line
    opened, places = 0, {}
    for at, letter in enumerate(line[:LINE]):
        opened += (letter in "(") - (letter in ")")
        if letter == " " and at > 40 and line[at + 1] != "}":
            places[opened] = at
    end = places[min(places)]
    return line[:end] + "\n" + wrapped("        " + line[end + 1:])


def laid_out(match):
    """The signature of a function, in one line if it fits."""
    indent, head, arguments, result = match.groups()
    parts = [part.strip() for part in re.split(r",\s+(?![^<]*>)", arguments) if part.strip()]
    line = f"{indent}{head}({', '.join(parts)}){result}"
    brace = " {" if match.string[match.end():match.end() + 2] == " {" else ""
    if len(line + brace) <= LINE:
        return line
    return f"{indent}{head}(\n" + "".join(f"{indent}    {part},\n" for part in parts) + f"{indent}){result}"


def has(text, word):
    """Whether the code of a text has a word."""
    code = "\n".join(line for line in text.split("\n") if not re.match(r"\s*(//|use |ghost use )", line))
    return re.search(rf"(?<![\w.]){word}\b", code) is not None


def imported(text):
    """A text with the imports that it needs for values."""
    if "u128_values" in text:
        return text
    kinds = [kind for kind in ("Count", "Value", "ValueRun") if has(text, kind)]
    if not kinds:
        return text
    if not has(text, "Run"):
        text = text.replace("use super::run::Run;\n", "")
    listed = kinds[0] if len(kinds) == 1 else "{" + ", ".join(kinds) + "}"
    uses = [line for line in text.split("\n") if re.match(r"use (super|crate)::", line)]
    text = text.replace(uses[-1] + "\n", f"{uses[-1]}\nuse crate::u128_values::{listed};\n", 1)
    words = [word for word in ("number", "total") if re.search(rf"(?<![\w.]){word} [\w(]", text)]
    if words:
        ghosts = [line for line in text.split("\n") if line.startswith("ghost use ")]
        place = f"ghost use Rattle.range_set_c.specs.U128Values.{{{', '.join(words)}}};"
        after = [line for line in ghosts if line < place]
        text = text.replace(after[-1] + "\n", f"{after[-1]}\n{place}\n", 1)
    return text


def imported_by_spec(text):
    """The spec of runs, which are runs of values."""
    text = text.replace("declared.u128_sets.run.Run.{Run}", "declared.u128_values.ValueRun.{ValueRun}")
    text = re.sub(r"\bRun →", "ValueRun →", text).replace("List Run", "List ValueRun")
    line = "use Rattle.range_set_c.specs.declared.u128_values"
    return text.replace(line, f"use Rattle.range_set_c.specs.U128Values.{{number}}\n{line}")
