"""Makes all files of a release from what build.py leaves."""
import shutil
import subprocess
import sys
import tempfile
from pathlib import Path

import archives
import binaries
import debian
import layout
import provenance
import python_package
import rust_crate
from common import ARCHIVE, PROGRAMS, ROOT, SOURCE, Failed, fresh, run, say


def check_binaries(tree):
    """Ends the release if a program or the shared library is not as it has to be."""
    found = []
    for path in [*(tree / "bin" / name for name in PROGRAMS), tree / "lib" / layout.SHARED]:
        found += [f"{path.name}: {why}" for why in binaries.faults(path, path.parent.name == "bin")]
    found += [f"{layout.SHARED}: {why}" for why in binaries.faults_of_names(tree / "lib" / layout.SHARED)]
    found += [f"librange_set.a: it has the path {name} in it" for name in binaries.paths_in(tree / "lib" / "librange_set.a")]
    if found:
        raise Failed("\n".join(found))


def source_archive(out):
    """Writes the files of the commit, as git has them."""
    plain = subprocess.run(
        ["git", "-C", str(ROOT), "archive", "--format=tar", f"--prefix={SOURCE}/", "HEAD"], check=True, capture_output=True
    )
    (out / f"{SOURCE}.tar.gz").write_bytes(archives.compressed(plain.stdout))


def write_sums(out):
    """Writes the sums of all files of the release."""
    files = sorted(path for path in out.rglob("*") if path.is_file() and path.name != "SHA256SUMS")
    (out / "SHA256SUMS").write_text("".join(f"{archives.sum_of(path)}  {path.relative_to(out)}\n" for path in files))


def release(built, out):
    """Writes the release to a folder, which it empties first."""
    fresh(out)
    with tempfile.TemporaryDirectory(prefix="release-") as folder:
        tree = layout.tree(built, Path(folder))
        check_binaries(tree)
        (tree / "PROVENANCE.txt").write_text(provenance.text(built, tree))
        shutil.copy(tree / "PROVENANCE.txt", out)
        run(sys.executable, ROOT / "tools" / "site", tree / "doc")
        archives.write_tar(out / f"{ARCHIVE}.tar.gz", tree, ARCHIVE)
        source_archive(out)
        python_package.wheel(tree, out)
        python_package.source(out)
        rust_crate.crate(out)
        debian.packages(tree, Path(folder), out)
    write_sums(out)
    for path in sorted(path for path in out.rglob("*") if path.is_file()):
        say(f"{path.stat().st_size:>10} {path.relative_to(out)}")
