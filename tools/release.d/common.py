"""What all parts of tools/release share: the version, the time, and how they run other programs."""
import functools
import os
import shutil
import subprocess
import sys
from pathlib import Path

ROOT = Path(__file__).resolve().parent.parent.parent
VERSION = (ROOT / "VERSION").read_text().strip()
PLATFORM = "linux-x86_64"
ARCHIVE = f"range-set-{VERSION}-{PLATFORM}"
SOURCE = f"range-set-{VERSION}-source"

# The programs that a release ships, and the packages of Debian that have the tools it needs.
PROGRAMS = ("ip_lists", "rsb_run")
PACKAGES = {
    "cargo": "cargo (1.82 or later)",
    "dpkg-deb": "dpkg",
    "lintian": "lintian",
    "mmdebstrap": "mmdebstrap",
    "objdump": "binutils",
    "readelf": "binutils",
    "strip": "binutils",
    "unshare": "util-linux",
    "xz": "xz-utils",
}


class Failed(SystemExit):
    """Ends the release with a message and status 1."""


def say(line):
    """Prints a line at once."""
    print(line, flush=True)


def need(*programs):
    """Ends the release if a program is missing, and says which package has it."""
    for program in programs:
        if not shutil.which(program):
            raise Failed(f"{program} is missing: install {PACKAGES.get(program, program)}")


def run(*words, **how):
    """Runs a program, and returns what it prints. If it fails, ends the release with what it said."""
    need(str(words[0]))
    words = [str(word) for word in words]
    ran = subprocess.run(words, stdout=subprocess.PIPE, stderr=subprocess.STDOUT, text=True, **how)
    if ran.returncode:
        print(ran.stdout, file=sys.stderr)
        raise Failed(f"{' '.join(words)} ended with status {ran.returncode}")
    return ran.stdout


def git(*words):
    """Returns what a git command prints."""
    return run("git", "-C", ROOT, *words).strip()


def compatible():
    """Returns the number that versions with the same calls share, which is also that of the soname (docs/C.md)."""
    major, minor, _ = VERSION.split(".")
    return f"0.{minor}" if major == "0" else major


@functools.lru_cache(maxsize=None)
def release_time():
    """Returns the time of each file of the release, in seconds: SOURCE_DATE_EPOCH, or the time of the commit."""
    named = os.environ.get("SOURCE_DATE_EPOCH")
    return int(named if named else git("log", "-1", "--format=%ct"))


def fresh(folder):
    """Returns a folder that is now empty."""
    shutil.rmtree(folder, ignore_errors=True)
    folder.mkdir(parents=True)
    return folder
