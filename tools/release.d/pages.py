"""The programs and sessions that the pages show, and what they print."""
import re

from common import ROOT

LAST = 2**64 - 1
# The ends of a set in Python, which has signed values unless it is asked for others.
SIGNED = (-(2**63), 2**63 - 1)
# What the programs of examples/ print.
EXAMPLES = {
    "ranges.cpp": f"9..=9\n15..=18\nclosed 0..=8, 19..={LAST}\n",
    "ranges.py": f"open 9..=18\nclosed {SIGNED[0]}..=8, 19..={SIGNED[1]}\n9..=9\n15..=18\n",
    "ranges.rs": f"true true\nfree 9..=9\nfree 15..=18\nclosed 0..=8, 19..={LAST}\n",
}


def blocks(page, language):
    """Returns the blocks of a page in a language."""
    return re.findall(rf"^```{language}\n(.*?)^```$", (ROOT / page).read_text(), re.M | re.S)


def session(page, begins):
    """Returns the commands of the session that begins with some text, each with what it prints."""
    block = next(block for block in blocks(page, "text") if block.startswith(f"$ {begins}"))
    parts = re.split(r"^\$ ", block, flags=re.M)[1:]
    return [tuple(part.split("\n", 1)) for part in parts]


# The session with PostgreSQL in docs/DATA.md, and what it returns.
SETS_OF_POSTGRES = (blocks("docs/DATA.md", "sql")[0].replace("\n    ", " "), "1..=2, 23..=30")


def install(kind):
    """Returns README's command that installs a kind of file, such as `*.deb`, without comment and `sudo`."""
    lines = [line.split("  #")[0] for line in blocks("README.md", "sh")[0].splitlines()]
    return next(line for line in lines if kind in line).strip().removeprefix("sudo ")


def c_session():
    """Returns README's program in C, the command that compiles and runs it, and what that prints."""
    (command, printed), *_ = session("README.md", "cc session.c")
    return blocks("README.md", "c")[0], command, printed


def python_session():
    """Returns README's session with Python, as doctest reads it."""
    return "\n".join(blocks("README.md", "python")[-1:])


def cmake_project(version):
    """Returns a project for CMake with a program over each library."""
    return f"""cmake_minimum_required(VERSION 3.10)
project(session C)
find_package(range_set {version} CONFIG REQUIRED)
add_executable(with_shared session.c)
target_link_libraries(with_shared range_set::range_set)
add_executable(with_static session.c)
target_link_libraries(with_static range_set::static)
"""
