"""Makes the wheel and the source archive of the Python package, with the backend that pip calls (python/build_backend.py)."""
import base64
import hashlib
import os
import shutil
import sys
import tarfile
import tempfile
import zipfile
from pathlib import Path

import archives
import binaries
import layout
from common import ROOT, VERSION, Failed, run

PYTHON = ROOT / "python"
NAME = f"range_set-{VERSION}"
MODULE = "range_set/_core.abi3.so"
# What a compiler adds to the module, besides what the backend asks of it (docs/DECISIONS.md, no-canaries).
HARDENED = "-fstack-protector-strong -fstack-clash-protection -D_FORTIFY_SOURCE=2"


def called(backend_call, to, library=""):
    """Calls the backend in a process of its own, and returns the file that it made in a folder."""
    program = f"import sys; sys.path.insert(0, '.'); import build_backend; print(build_backend.{backend_call}(sys.argv[1]))"
    added = {"RANGE_SET_LIBRARY": str(library), "PYTHONDONTWRITEBYTECODE": "1"}
    added["CC"] = f"{os.environ.get('CC', 'cc')} {HARDENED}"
    return to / run(sys.executable, "-c", program, to, cwd=PYTHON, env={**os.environ, **added}).split()[-1]


def contents(tree):
    """Returns the name and the bytes of each file of a wheel over the static library of a tree, with its module stripped."""
    with tempfile.TemporaryDirectory() as folder:
        made = called("build_wheel", Path(folder), tree)
        with zipfile.ZipFile(made) as archive:
            files = {name: archive.read(name) for name in sorted(archive.namelist())}
            module = Path(archive.extract(MODULE, folder))
        layout.stripped(module, module.with_name("stripped.so"), "--strip-unneeded")
        files[MODULE] = module.with_name("stripped.so").read_bytes()
    return files


def tag(module):
    """Returns the tags of the wheel, by the newest symbols of glibc that its module uses, and the name that says them.

    Old pips know only manylinux2014.
    """
    major, minor = binaries.glibc_needed(module)
    platforms = [f"manylinux_{major}_{minor}_x86_64"]
    if (major, minor) <= (2, 17):
        platforms.append("manylinux2014_x86_64")
    return ["cp38-abi3-" + platform for platform in platforms], "cp38-abi3-" + ".".join(platforms)


def record(files, name):
    """Returns the wheel's list of files."""
    rows = []
    for file, data in files.items():
        digest = base64.urlsafe_b64encode(hashlib.sha256(data).digest()).rstrip(b"=").decode()
        rows.append(f"{file},sha256={digest},{len(data)}\n")
    return ("".join(rows) + f"{name},,\n").encode()


def checked_module(data, folder):
    """Writes the module of a wheel to a folder, and returns its path. Ends the release if something is wrong with it."""
    module = folder / Path(MODULE).name
    module.write_bytes(data)
    found = list(binaries.faults(module, False))
    if found:
        raise Failed("\n".join(f"{module.name}: {why}" for why in found))
    return module


def wheel(tree, out):
    """Writes the wheel over the static library of a tree, and returns its path."""
    files = contents(tree)
    with tempfile.TemporaryDirectory() as folder:
        tags, name = tag(checked_module(files[MODULE], Path(folder)))
    about, listed = f"{NAME}.dist-info/WHEEL", f"{NAME}.dist-info/RECORD"
    lines = [line for line in files[about].decode().splitlines() if not line.startswith("Tag:")]
    files[about] = "\n".join([*lines, *(f"Tag: {it}" for it in tags), ""]).encode()
    files[f"{NAME}.dist-info/NOTICE"] = (ROOT / "NOTICE").read_bytes()
    del files[listed]
    files[listed] = record(files, listed)
    archives.write_zip(out / f"{NAME}-{name}.whl", files)
    return out / f"{NAME}-{name}.whl"


def source(out):
    """Writes the source archive, and returns its path."""
    with tempfile.TemporaryDirectory() as folder:
        made = called("build_sdist", Path(folder))
        with tarfile.open(made) as archive:
            archive.extractall(folder)
        top = Path(folder) / NAME
        for name in layout.LICENCES:
            shutil.copy(ROOT / name, top)
        archives.write_tar(out / f"{NAME}.tar.gz", top, NAME)
    return out / f"{NAME}.tar.gz"
