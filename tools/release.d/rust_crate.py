"""Makes the Rust crate's archive as `cargo package` does, from a copy that has its example and the licences inside.

The archive also has the manifest in `serde`, which `cargo package` leaves out as that of another package.
"""
import copy
import gzip
import io
import os
import re
import shutil
import tarfile
import tempfile
from pathlib import Path

import layout
from common import ROOT, VERSION, need, run

# The example is beside the crate in the repository, and inside it in the archive.
EXAMPLE = re.compile(r'\n\[\[example\]\]\nname = "ranges"\npath = "\.\./examples/ranges\.rs"\n')


def copied(folder):
    """Copies the crate to a folder, with all that its archive has."""
    top = folder / "range_set"
    for name in layout.tracked("rust"):
        to = top / Path(name).relative_to("rust")
        to.parent.mkdir(parents=True, exist_ok=True)
        shutil.copy(ROOT / name, to)
    (top / "examples").mkdir(exist_ok=True)
    shutil.copy(ROOT / "examples" / "ranges.rs", top / "examples")
    for name in layout.LICENCES:
        shutil.copy(ROOT / name, top)
    manifest = top / "Cargo.toml"
    manifest.write_text(EXAMPLE.sub("", manifest.read_text()))
    return top


def with_second_manifest(made, to):
    """Copies an archive, and adds the folder `serde` to it."""
    folder = ROOT / "rust" / "serde"
    names = [Path(name) for name in layout.tracked("rust/serde")]
    with tarfile.open(made) as old, open(to, "wb") as file:
        members = old.getmembers()
        with gzip.GzipFile(filename="", mode="wb", fileobj=file, mtime=0) as packed, tarfile.open(
            fileobj=packed, mode="w", format=tarfile.GNU_FORMAT
        ) as new:
            for member in members:
                new.addfile(member, old.extractfile(member))
            for name in names:
                member, text = copy.copy(members[0]), (ROOT / name).read_bytes()
                member.name = f"range_set-{VERSION}/serde/{(ROOT / name).relative_to(folder)}"
                member.size = len(text)
                new.addfile(member, io.BytesIO(text))


def crate(out):
    """Writes the crate's archive, and returns its path."""
    need("cargo")
    with tempfile.TemporaryDirectory() as folder:
        top = copied(Path(folder))
        environment = {**os.environ, "CARGO_TARGET_DIR": f"{folder}/target"}
        run("cargo", "package", "--offline", "--no-verify", "--allow-dirty", "--quiet", cwd=top, env=environment)
        made = Path(folder) / "target" / "package" / f"range_set-{VERSION}.crate"
        with_second_manifest(made, out / made.name)
    return out / made.name
