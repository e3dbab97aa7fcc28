"""Makes the references of the calls in C and C++, Python and Rust from their comments."""
import ast
import os
import re
import shutil
import subprocess
import sys
import textwrap

from staged import ROOT, need

DOXYGEN = """\
PROJECT_NAME = "range_set for C and C++"
INPUT = {room}/include
USE_MDFILE_AS_MAINPAGE = {room}/include/first.md
RECURSIVE = YES
FILE_PATTERNS = *.h *.hpp first.md
EXCLUDE_SYMBOLS = range_set::detail*
STRIP_FROM_PATH = {room}/include
OUTPUT_DIRECTORY = {room}
HTML_OUTPUT = c
HTML_EXTRA_STYLESHEET = {room}/dark.css
LAYOUT_FILE = {room}/layout.xml
GENERATE_LATEX = NO
EXTRACT_ALL = YES
JAVADOC_AUTOBRIEF = YES
OPTIMIZE_OUTPUT_FOR_C = NO
MACRO_EXPANSION = NO
HTML_TIMESTAMP = NO
HAVE_DOT = NO
QUIET = YES
WARNINGS = NO
WARN_IF_UNDOCUMENTED = NO
INPUT_FILTER = "sed -e '{filter}'"
"""
# The first page of doxygen's, and what is dark in a dark browser.
FIRST = """\
# Reference for C and C++

- range_set.h has the sets for C.
- range_set.hpp has the classes for C++17 and later.
"""
DARK = "@media (prefers-color-scheme: dark) { html { filter: invert(0.9) hue-rotate(180deg); background: white; } }\n"
# The links to the other pages: a tab of doxygen's, and the end of the head of rustdoc's sidebar.
TAB = '<navindex>\n    <tab type="user" url="../../index.html" title="Wooljasper"/>'
HEAD = re.compile(r'(<nav class="sidebar"><div class="sidebar-crate">.*?</div>)', re.S)
# Gives comments the form that doxygen reads. The first one of a file is about the file.
FILTER = (
    r"1s|^/\* |/** @file\n * |",
    r"1s|^// |/// @file\n/// |",
    r"s|^\( *\)/\* \(---- \)*|\1/** |",
    r"s|^\( *\)//\( .*\)*$|\1///\2|",
)
# The folder of the Python package, and under which title a class is that users do not name.
PACKAGE = ROOT / "python" / "range_set"
TITLES = {
    "Algebra": "All sets: operators and comparisons",
    "Reads": "All sets: reads",
    "Set": "All sets: counts, runs and gaps",
    "Changing": "Sets that change: one value",
    "Changes": "Sets that change: many values",
    "Freezes": "Frozen sets",
    "IntOptions": "Sets of ints: options",
    "AddressOptions": "Sets of addresses: options",
}
# What the extension module says about a function: its head, and its docstring.
LITERALS = re.compile(r'(?:"(?:[^"\\\n]|\\.)*"\s*)+')
OF_C = re.compile(r"(\w+)(\(.*?\))\n--\n\n(.*)", re.S)


def called(words, **how):
    """Runs a program, and ends with what it said if it fails."""
    ran = subprocess.run(words, capture_output=True, text=True, **how)
    if ran.returncode:
        sys.exit(f"{' '.join(words)}: {ran.stdout}{ran.stderr}")


def name_folders(made):
    """Gives the pages of doxygen's about folders names that do not depend on where they were made."""
    pages = {re.search("<title>.*</title>", page.read_text())[0]: page for page in made.glob("dir_*.html")}
    names = {pages[title].stem: f"dir_{number}" for number, title in enumerate(sorted(pages))}
    for file in [*made.rglob("*.html"), *made.rglob("*.js")]:
        text = file.read_text()
        renamed = re.sub(r"dir_[0-9a-f]{32}", lambda found: names.get(found[0], found[0]), text)
        if renamed != text:
            file.write_text(renamed)
    for page in pages.values():
        page.rename(made / f"{names[page.stem]}.html")


def c(room, to):
    """Has doxygen read the headers."""
    need("doxygen", "doxygen")
    shutil.copytree(ROOT / "include", room / "include")
    (room / "include" / "first.md").write_text(FIRST)
    (room / "dark.css").write_text(DARK)
    called(["doxygen", "-l", str(room / "layout.xml")])
    layout = room / "layout.xml"
    layout.write_text(re.sub(r"<navindex>", TAB, layout.read_text()))
    (room / "Doxyfile").write_text(DOXYGEN.format(room=room, filter="; ".join(FILTER)))
    called(["doxygen", str(room / "Doxyfile")])
    name_folders(room / "c")
    shutil.copytree(room / "c", to)


def rust(room, to):
    """Has rustdoc read the crate, which it can without the library."""
    need("cargo", "cargo (1.82 or later)")
    words = ["cargo", "doc", "--quiet", "--offline", "--no-deps", "--manifest-path", str(ROOT / "rust" / "Cargo.toml")]
    called(words, env={**os.environ, "CARGO_TARGET_DIR": str(room / "target")})
    shutil.copytree(room / "target" / "doc", to, ignore=shutil.ignore_patterns(".lock"))
    for page in to.rglob("*.html"):
        home = os.path.relpath(to.parent.parent / "index.html", page.parent)
        link = f'\\1<div class="sidebar-elems"><h3><a href="{home}">Wooljasper</a></h3></div>'
        page.write_text(HEAD.sub(link, page.read_text(), count=1))


def docstrings_of_c():
    """Returns the head and the docstring of each function of the extension module, by its name, from the texts in its sources."""
    found = {}
    for file in sorted((PACKAGE.parent / "src").glob("*.[ch]")):
        for literals in LITERALS.findall(file.read_text().replace("\\\n", "\n")):
            told = OF_C.fullmatch(ast.literal_eval(f"({literals})"))
            if told:
                found[told[1]] = (told[1] + told[2].replace("$self, ", "self, ").replace("$self", "self"), told[3])
    return found


def documented(item, of_c):
    """Yields the head and the docstring of each public method of a class that has one."""
    for method in item.body:
        if isinstance(method, ast.FunctionDef) and not re.match(r"_(?!_)", method.name):
            told = ast.get_docstring(method)
            head = f"{method.name}({ast.unparse(method.args)})" + (f" -> {ast.unparse(method.returns)}" if method.returns else "")
            head, told = (head, told) if told else of_c.get(method.name, (head, None))
            if told:
                yield method.name, head, told


def as_page(text):
    """Returns a docstring as text of a page, where its sessions are blocks."""
    parts = []
    for part in re.split(r"\n\s*\n", textwrap.dedent(text)):
        is_session = part.lstrip().startswith(">>>")
        parts.append(f"```pycon\n{textwrap.dedent(part)}\n```" if is_session else part.replace("<", "&lt;"))
    return "\n\n".join(parts)


def of_class(item, of_c):
    """Yields the parts of a page about a class: its docstring, and its documented methods."""
    yield f"## {TITLES.get(item.name, item.name)}"
    yield as_page(ast.get_docstring(item) or of_c.get(item.name, ("", ""))[1])
    for name, head, told in documented(item, of_c):
        yield f"### `{name}`"
        yield f"```python\n{head}\n```"
        yield as_page(told)


def named_for_users():
    """Returns the names that the package gives to its users, in order."""
    text = (PACKAGE / "__init__.py").read_text()
    return re.findall(r'"(\w+)"', re.search(r"^__all__ = \[(.*?)\]", text, re.M | re.S)[1])


def python():
    """Returns the page about the Python package: the classes that users name, and then those that these build on."""
    names, of_c, classes = named_for_users(), docstrings_of_c(), {}
    for file in [*sorted(PACKAGE.glob("*.py")), *PACKAGE.glob("*.pyi")]:
        for item in ast.parse(file.read_text()).body:
            is_kept = isinstance(item, ast.ClassDef) and (item.name in names or any(documented(item, of_c)))
            if is_kept and not item.name.startswith("_"):
                classes.setdefault(item.name, item)
    parts = ["# Python", as_page(ast.get_docstring(ast.parse((PACKAGE / "__init__.py").read_text())))]
    order = [*(name for name in names if name in classes), *(name for name in classes if name not in names)]
    for name in order:
        parts += of_class(classes[name], of_c)
    return "\n\n".join(parts) + "\n"
