"""Compiles the programs under bench/c/, over the library for C and over other libraries. Debian has these in
libroaring-dev and libboost-dev."""

import os
import re
import subprocess
import sys
from dataclasses import dataclass
from pathlib import Path

HERE = Path(__file__).resolve().parent / "c"
PREFIX = HERE.parent.parent / "out"


@dataclass
class Source:
    """A program: its name in tables, its source, and the flags that compile it."""

    name: str
    file: str
    flags: list


def ours(prefix, width):
    """The program over this library, which tools/c/build put into a folder, for values of so many bits."""
    flags = [f"-DWIDTH={width}", f"-I{prefix}/include", f"{prefix}/lib/librange_set.a"]
    return Source(f"`u{width}`", "range_set.c", flags)


def roaring():
    """The program over CRoaring."""
    return Source("CRoaring", "roaring.c", ["-lroaring"])


def icl(width):
    """The program over Boost.ICL, for values of so many bits."""
    return Source("Boost.ICL", "icl.cpp", [f"-DWIDTH={width}"])


def compiler(file):
    """The command that compiles the language of a source."""
    if file.endswith(".cpp"):
        return [os.environ.get("CXX", "c++"), "-std=c++17"]
    return [os.environ.get("CC", "cc"), "-std=c11"]


def built(source, folder, *flags):
    """The path of a program, or None if it does not compile, which standard error then says."""
    path = os.path.join(folder, re.sub(r"\W", "", source.name))
    words = [*compiler(source.file), "-O2", *flags, str(HERE / source.file), *source.flags, "-o", path]
    made = subprocess.run(words, stderr=subprocess.PIPE, text=True)
    if made.returncode == 0:
        return path
    why = next((line for line in made.stderr.splitlines() if "error" in line), made.stderr.strip())
    print(f"{source.name}: not built, and left out: {why}", file=sys.stderr)
    return None
