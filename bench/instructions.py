"""Counts the instructions that a program executes, with valgrind. Unlike times, they repeat to a part in a thousand,
whatever else the machine does."""

import re
import shutil
import subprocess

WORDS = ["valgrind", "--tool=cachegrind", "--cache-sim=no", "--cachegrind-out-file=/dev/null"]
TOTAL = re.compile(r"I +refs: +([\d,]+)")


def can_count():
    """Whether valgrind is installed."""
    return shutil.which(WORDS[0]) is not None


def of_run(words, path="/dev/null"):
    """The instructions of one run of a command, with a file as its input."""
    with open(path) as commands:
        done = subprocess.run([*WORDS, *words], stdin=commands, stdout=subprocess.DEVNULL, stderr=subprocess.PIPE, text=True)
    return int(TOTAL.search(done.stderr).group(1).replace(",", ""))
