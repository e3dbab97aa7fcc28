"""What commands cost in a fresh clone, with nothing that the kit kept: for tools/gate-cost and bench/first-hour."""
import os
import re
import resource
import subprocess
import sys
import tempfile
import time
from contextlib import contextmanager
from dataclasses import dataclass
from pathlib import Path

ROOT = Path(__file__).resolve().parent.parent
CORES = len(os.sched_getaffinity(0))
LAST_LINES = 4


@dataclass
class Taken:
    """What a command took: processor time, user and system, of all cores, and time on the clock, in seconds."""

    processor: float
    clock: float


def kept_by_rt():
    """The folder beside the kit in which `rt` keeps what it passed."""
    page = subprocess.run(["rt", "doc"], check=True, capture_output=True, text=True).stdout.strip()
    return Path(page).resolve().parent.parent / "rattle-kept"


@contextmanager
def nothing_kept(stays):
    """Moves what `rt` keeps aside, and brings it back at the end, unless what is kept meanwhile stays in its place."""
    kept = kept_by_rt()
    aside = kept.with_name(kept.name + ".before-costs")
    if aside.exists():
        sys.exit(f"{aside} is from a run that was killed: move it back to {kept}")
    if kept.exists():
        kept.rename(aside)
    try:
        yield
    finally:
        if stays and kept.exists():
            subprocess.run(["rm", "-rf", aside], check=True)
        else:
            subprocess.run(["rm", "-rf", kept], check=True)
            if aside.exists():
                aside.rename(kept)


@contextmanager
def fresh_clone():
    """A clone of the last commit, in a folder that goes at the end."""
    with tempfile.TemporaryDirectory(prefix="costs-") as room:
        # The gate runs programs as another user, who has to reach them.
        os.chmod(room, 0o755)
        clone = Path(room) / "clone"
        subprocess.run(["git", "clone", "--quiet", "--no-hardlinks", ROOT, clone], check=True)
        yield clone


def taken_by(words, folder, given, log):
    """Runs a command, and returns what it took, or None if it fails. Its output goes to the log, its end to standard error."""
    print(f"$ {' '.join(words)}", file=log, flush=True)
    began = os.path.getsize(log.name)
    with open(folder / given) as stdin:
        before, began_at = resource.getrusage(resource.RUSAGE_CHILDREN), time.monotonic()
        ran = subprocess.run(words, cwd=folder, stdin=stdin, stdout=log, stderr=log)
        after, ended_at = resource.getrusage(resource.RUSAGE_CHILDREN), time.monotonic()
    seconds = after.ru_utime + after.ru_stime - before.ru_utime - before.ru_stime
    with open(log.name, errors="replace") as said:
        said.seek(began)
        lines = said.read().splitlines()
    end = f"status {ran.returncode}, {seconds:.1f} s of processor"
    print(f"$ {' '.join(words)}", *lines[-LAST_LINES:], f"({end})", sep="\n", file=sys.stderr, flush=True)
    return None if ran.returncode else Taken(seconds, ended_at - began_at)


def machine():
    """The machine's cores and their clock speed."""
    speeds = re.findall(r"^cpu MHz\s*: ([\d.]+)", Path("/proc/cpuinfo").read_text(), re.M)
    speed = f"{max(map(float, speeds)) / 1000:.1f} GHz" if speeds else "unknown speed"
    return f"{CORES} cores of {speed}"
