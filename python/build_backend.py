"""Builds the wheel of range_set with only Python's standard library and a C compiler, as PEP 517 and PEP 660 describe.

The wheel holds the package and its extension module, which is compiled from src/ and has the C library
inside. The environment variable RANGE_SET_LIBRARY names the static library librange_set.a, or the folder
that tools/c/build wrote. Otherwise it is the one that tools/c/build wrote to out, or the compiler's own.
The module keeps to the limited API of Python 3.8, so one wheel serves that version and later ones
(docs/DECISIONS.md, one-python-wheel).

An editable installation puts the module beside the package in this folder. If a build fails, it leaves
nothing behind.
"""

import base64
import hashlib
import io
import os
import re
import shutil
import subprocess
import sys
import sysconfig
import tarfile
import tempfile
import zipfile
from pathlib import Path

HERE = Path(__file__).resolve().parent
BUILT = HERE.parent / "out"
ARCHIVE = "librange_set.a"
MODULE = "_core.abi3.so"
VERSION = re.search(r'^__version__ = "(.*)"$', (HERE / "range_set" / "__init__.py").read_text(), re.M)[1]
NAME = f"range_set-{VERSION}"
METADATA = f"""\
Metadata-Version: 2.1
Name: range-set
Version: {VERSION}
Summary: Sets of ints, dates and addresses as sorted ranges, over a proved library
License: Apache-2.0 OR MIT
Requires-Python: >=3.8
Provides-Extra: dask
Requires-Dist: dask[distributed]; extra == "dask"
"""
FLAGS = "-std=c11 -O2 -fPIC -fvisibility=hidden -shared -DPy_LIMITED_API=0x03080000".split()
FLAGS += "-Wl,--exclude-libs,ALL -Wl,-z,relro,-z,now".split()

MISSING = f"""\
range_set: there is no C library to build with, so nothing is installed.
    Build it with tools/c/build at the top of the repository, which writes it to {BUILT},
    or set the environment variable RANGE_SET_LIBRARY to the path of {ARCHIVE}.
"""
NO_COMPILER = """\
range_set: there is no C compiler {!r}, so nothing is installed.
    Install one (on Debian: apt install gcc libc6-dev), or set the environment variable CC.
"""
NO_HEADER = """\
range_set: there is no Python.h in {}, so nothing is installed.
    Install the headers of this Python (on Debian: apt install python3-dev).
"""


def fail(text):
    """Ends the build with a message, and no trace of the calls."""
    sys.exit(text)


def compiler():
    """Returns the words that run the C compiler."""
    words = os.environ.get("CC", "").split() or ["cc"]
    if not shutil.which(words[0]):
        fail(NO_COMPILER.format(words[0]))
    return words


def c_library(cc):
    """Returns the path of the static library."""
    named = os.environ.get("RANGE_SET_LIBRARY")
    path = Path(named).resolve() if named else BUILT
    for place in (path, path / "lib" / ARCHIVE, path.with_name(ARCHIVE)):
        # The name of the shared library stands for the static one beside it.
        if place.is_file() and not place.name.startswith("librange_set.so"):
            return place
    if named:
        fail(f"range_set: RANGE_SET_LIBRARY is {named}, and there is no {ARCHIVE}\n")
    found = subprocess.run([*cc, f"-print-file-name={ARCHIVE}"], stdout=subprocess.PIPE, text=True).stdout.strip()
    return Path(found) if os.path.isabs(found) else fail(MISSING)


def header_folder(library):
    """Returns the folder of the library's header, which has to be of this version."""
    places = [library.parents[up] / "include" for up in range(1, min(4, len(library.parents)))]
    for folder in [*places, HERE.parent / "include", HERE / "include"]:
        header = folder / "range_set.h"
        if header.is_file():
            version = re.search(r'^#define RANGE_SET_VERSION "(.*)"$', header.read_text(), re.M)
            if not version or version[1] != VERSION:
                fail(f"range_set: {header} is of version {version and version[1]}, and this package of {VERSION}\n")
            return folder
    return fail(f"range_set: there is no range_set.h beside {library}\n")


def compiled(folder):
    """Compiles the extension module in a folder, tries whether Python loads it, and returns its path."""
    cc = compiler()
    library = c_library(cc)
    python = sysconfig.get_path("include")
    if not os.path.isfile(os.path.join(python, "Python.h")):
        fail(NO_HEADER.format(python))
    module = Path(folder, MODULE)
    sources = sorted(str(file) for file in HERE.glob("src/*.c"))
    words = [*cc, *FLAGS, *os.environ.get("CFLAGS", "").split(), "-isystem", python, "-I", str(header_folder(library)), *sources, str(library), "-o", str(module)]
    ran = subprocess.run(words, stdout=subprocess.PIPE, stderr=subprocess.STDOUT, text=True)
    if ran.returncode:
        fail(f"range_set: the extension module does not compile, so nothing is installed:\n{ran.stdout[:2000]}")
    script = f"import sys; sys.path.insert(0, {str(folder)!r}); import _core; print(_core.version)"
    ran = subprocess.run([sys.executable, "-c", script], stdout=subprocess.PIPE, stderr=subprocess.STDOUT, text=True)
    if ran.stdout != f"{VERSION}\n":
        last = ran.stdout.strip().splitlines()[-1]
        fail(f"range_set: the extension module does not load, so nothing is installed. {library} may be of another version:\n{last}\n")
    return module


def contents(module):
    """Yields the name and the bytes of each file of the package."""
    for file in sorted([*HERE.glob("range_set/*.py"), *HERE.glob("range_set/*.pyi"), HERE / "range_set" / "py.typed"]):
        yield f"range_set/{file.name}", file.read_bytes()
    yield f"range_set/{MODULE}", module.read_bytes()


def metadata(tag):
    """Yields the name and the bytes of each file that describes the package, except the list of files."""
    for folder in (HERE.parent, HERE):
        for file in sorted(folder.glob("LICENSE-*")):
            yield f"{NAME}.dist-info/{file.name}", file.read_bytes()
    wheel = f"Wheel-Version: 1.0\nGenerator: build_backend\nRoot-Is-Purelib: false\nTag: {tag}\n"
    yield f"{NAME}.dist-info/WHEEL", wheel.encode()
    yield f"{NAME}.dist-info/METADATA", METADATA.encode()


def write_wheel(wheel_directory, files):
    """Writes a wheel with these files and returns its name."""
    tag = "cp38-abi3-" + re.sub("[-.]", "_", sysconfig.get_platform())
    record = f"{NAME}.dist-info/RECORD"
    rows = []
    path = Path(wheel_directory, f"{NAME}-{tag}.whl")
    with zipfile.ZipFile(path, "w", zipfile.ZIP_DEFLATED) as wheel:
        for name, data in [*files, *metadata(tag)]:
            digest = base64.urlsafe_b64encode(hashlib.sha256(data).digest()).rstrip(b"=").decode()
            rows.append(f"{name},sha256={digest},{len(data)}\n")
            wheel.writestr(name, data)
        wheel.writestr(record, "".join(rows) + f"{record},,\n")
    return path.name


def build_wheel(wheel_directory, config_settings=None, metadata_directory=None):
    """Writes the wheel and returns its name."""
    with tempfile.TemporaryDirectory() as folder:
        return write_wheel(wheel_directory, list(contents(compiled(folder))))


def build_editable(wheel_directory, config_settings=None, metadata_directory=None):
    """Writes the wheel of `pip install --editable`, which names this folder, and returns its name."""
    with tempfile.TemporaryDirectory(dir=HERE) as folder:
        os.replace(compiled(folder), HERE / "range_set" / MODULE)
    return write_wheel(wheel_directory, [("range_set.pth", f"{HERE}\n".encode())])


def build_sdist(sdist_directory, config_settings=None):
    """Writes an archive of the sources and of the header, and returns its name."""
    with tarfile.open(Path(sdist_directory, f"{NAME}.tar.gz"), "w:gz") as archive:
        for part in ("pyproject.toml", "build_backend.py", "bench.py", "range_set", "src", "tests"):
            archive.add(HERE / part, f"{NAME}/{part}", filter=without_built)
        headers = HERE / "include" if (HERE / "include").is_dir() else HERE.parent / "include"
        for part in ("range_set.h", "range_set"):
            archive.add(headers / part, f"{NAME}/include/{part}", filter=without_built)
        info = tarfile.TarInfo(f"{NAME}/PKG-INFO")
        info.size = len(METADATA)
        archive.addfile(info, io.BytesIO(METADATA.encode()))
    return f"{NAME}.tar.gz"


def without_built(member):
    """Returns what to write of a member of an archive: nothing of compiled files and libraries."""
    left_out = "__pycache__" in member.name or member.name.endswith((".so", ".hpp"))
    return None if left_out else member
