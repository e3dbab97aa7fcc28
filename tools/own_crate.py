"""A reader's crate `app` over a copy of the libraries, in which tools/documents tries the code of pages and of tools/slips.

What was proved in this checkout is linked into the copy, so that it is not proved again.
"""
import os
import shutil
import subprocess
import tempfile
from contextlib import contextmanager
from pathlib import Path

ROOT = Path(__file__).resolve().parent.parent
PARTS = ("src", "specs", "proofs", "out/rlib")


def link_or_copy(file, to):
    """Links a file, or copies it from another disk. `rt` replaces the files of out/ and never writes into them."""
    try:
        os.link(file, to)
    except OSError:
        shutil.copy2(file, to)


def copy_crate(crate, to):
    """Copies a crate, with what was proved of it."""
    for part in PARTS:
        if (crate / part).is_dir():
            how = link_or_copy if part.startswith("out") else shutil.copy2
            shutil.copytree(crate / part, to / part, copy_function=how)


@contextmanager
def over(libraries):
    """The folder of the crate, which is a folder of a repository that goes at the end."""
    with tempfile.TemporaryDirectory(prefix="documents-") as folder:
        room = Path(folder)
        shutil.copy(ROOT / "HANDLES", room)
        for crate in (ROOT / "crates").iterdir():
            copy_crate(crate, room / "crates" / crate.name)
        (room / "crates.txt").write_text((ROOT / "crates.txt").read_text() + f"app: {libraries}\n")
        app = room / "crates" / "app"
        (app / "src").mkdir(parents=True)
        yield app


def write_root(app, text):
    """Writes the root file of the crate: of a program if it has a `main`, and else of a library."""
    shutil.rmtree(app / "src")
    (app / "src").mkdir()
    is_program = any(line.startswith("fn main(") for line in text.splitlines())
    (app / "src" / ("main.rt" if is_program else "lib.rt")).write_text(text)


def ran(app, *words):
    """What a command of `rt` returns and writes in the crate's folder."""
    how = {"cwd": app, "stdin": subprocess.DEVNULL, "stdout": subprocess.PIPE, "stderr": subprocess.STDOUT, "text": True}
    return subprocess.run(["rt", *words], **how)
