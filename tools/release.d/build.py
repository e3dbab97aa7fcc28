"""Proves what a release ships, and builds it. Nothing else in tools/release needs the kit.

The folder that it leaves is all that the packages are made from:

    include, lib    as tools/c/build lays them out
    bin             the programs
    PROVED          the kit's version, the commit, and the crates that the kit said are proved, a line each
"""
import os
import re
import subprocess
import sys
from pathlib import Path

from common import PROGRAMS, ROOT, Failed, fresh, git, need, run, say

START = Path(__file__).resolve().with_name("start.S")
LINKING = ("-Wl,-z,relro,-z,now,-z,noexecstack", "-Wl,--gc-sections,--as-needed", "-Wl,--build-id=sha1")
# Words by which the kit reports that it proved a crate, now or in an earlier run.
VERDICT = re.compile(r"^logic=proved |nothing has changed since the last proved build", re.M)


def prove(words, folder):
    """Runs a command that proves a crate, and ends the release if the kit does not say that it is proved."""
    say(f"proving: {' '.join(words)} in {folder.relative_to(ROOT) if folder != ROOT else 'the top folder'}")
    ran = subprocess.run(
        words, cwd=folder, stdin=subprocess.DEVNULL, stdout=subprocess.PIPE, stderr=subprocess.STDOUT, text=True
    )
    if ran.returncode:
        print(ran.stdout, file=sys.stderr)
        raise Failed(f"{' '.join(words)} failed")
    if not VERDICT.search(ran.stdout):
        raise Failed(f"{' '.join(words)}: the kit did not say that it proved the crate")


def linked(name, to):
    """Links a program from the code that the kit has just proved and compiled, so that it runs on old systems too.

    The kit links with the newest glibc. Nothing but the start file (start.S) differs from what it links.
    """
    kit = Path(run("rt", "doc").strip()).parent
    inputs = [START, ROOT / "crates" / name / "out" / f"{name}.o", kit / "c" / "libos_c.a", kit / "c" / "liblibc_c.a"]
    run(os.environ.get("CC", "cc"), "-nostartfiles", "-pie", *LINKING, "-o", to, *inputs)


def program(name, to):
    """Proves and builds a program."""
    arguments = ["--", "--version"] if name == "ip_lists" else []
    prove(["rt", "run", *arguments], ROOT / "crates" / name)
    linked(name, to / name)


def all_of_it(to):
    """Proves and builds the library and the programs, and returns the folder that has them."""
    need("rt", "strip")
    if git("status", "--porcelain"):
        raise Failed("the working tree has changes: commit them, since a release is of a commit")
    fresh(to)
    (to / "bin").mkdir()
    prove([str(ROOT / "tools" / "c" / "build"), str(to)], ROOT)
    for name in PROGRAMS:
        program(name, to / "bin")
    lines = [run("rt", "version").strip(), git("rev-parse", "HEAD"), "range_set_c", *PROGRAMS]
    (to / "PROVED").write_text("\n".join(lines) + "\n")
    return to
