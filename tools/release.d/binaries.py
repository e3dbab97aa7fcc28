"""Reads what a built file needs of the system it runs on, and says what is wrong with it."""
import re

from common import ROOT, compatible, run

# The glibc that the pages name: what is released runs with it and with later ones.
OLDEST_GLIBC = (2, 14)
# Where a path of the machine would begin.
OF_THE_MACHINE = re.compile(rb"(?:/home/|/root/|/work/|/tmp/|/opt/|/usr/src/)[\w./-]*")


def glibc_needed(*paths):
    """Returns the newest version of glibc whose symbols the files use, as two numbers."""
    found = set()
    for path in paths:
        found.update(re.findall(r"\bGLIBC_(\d+)\.(\d+)", run("objdump", "-T", path)))
    return max(((int(major), int(minor)) for major, minor in found), default=(2, 2))


def libraries_needed(path):
    """Returns the names of the libraries that the loader looks for."""
    return re.findall(r"\(NEEDED\).*\[(.*)\]", run("readelf", "-dW", path))


def paths_in(path):
    """Returns the paths of the machine that a file has in it."""
    data = path.read_bytes()
    found = {match.decode() for match in OF_THE_MACHINE.findall(data)}
    return sorted(found | ({str(ROOT)} if str(ROOT).encode() in data else set()))


def faults(path, is_program):
    """Yields what a program or a shared library lacks."""
    header, segments, dynamic = (run("readelf", flag, path) for flag in ("-hW", "-lW", "-dW"))
    if is_program and not ("DYN" in header and "INTERP" in segments):
        yield "it is not position independent"
    if "GNU_RELRO" not in segments or "NOW" not in dynamic:
        yield "it does not have full RELRO"
    if re.search(r"GNU_STACK.*RWE", segments):
        yield "its stack is executable"
    if ".symtab" in run("readelf", "-SW", path):
        yield "it is not stripped"
    if re.search(r"\((RPATH|RUNPATH|TEXTREL)\)", dynamic):
        yield "it has a path of libraries, or relocates its text"
    beyond = set(libraries_needed(path)) - {"libc.so.6"}
    if beyond:
        yield f"it needs {', '.join(sorted(beyond))}"
    if glibc_needed(path) > OLDEST_GLIBC:
        yield f"it needs glibc {'.'.join(map(str, glibc_needed(path)))}"
    for name in paths_in(path):
        yield f"it has the path {name} in it"


def faults_of_names(path):
    """Yields what is wrong with the soname of a shared library, and with the versions of the symbols that it exports."""
    soname, dynamic = f"librange_set.so.{compatible()}", run("readelf", "-dW", path)
    if f"[{soname}]" not in dynamic:
        yield f"its soname is not {soname}"
    versions = set(re.findall(r" g +D\w* +\.text\t\S+ +(\S+) +\w+$", run("objdump", "-T", path), re.M))
    if versions != {f"RANGE_SET_{compatible()}"}:
        yield f"its symbols have the versions {', '.join(sorted(versions)) or 'of no name'}"


def described(path):
    """Returns a line about a file: its size, and the glibc that it needs."""
    return f"{path.name}: {path.stat().st_size} bytes, glibc {'.'.join(map(str, glibc_needed(path)))} or later"
