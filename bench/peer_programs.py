"""Builds the programs under bench/peers/ with cargo, over the published crate or over sources of it in a folder, and
with `rt` those over this library."""

import os
import shutil
import subprocess
import sys
from pathlib import Path

HERE = os.path.dirname(os.path.abspath(__file__))
# The peers that are written over Rust's `BTreeMap`.
WITHOUT_ORIGINAL = ("maps", "tree")
ORIGINAL_HELP = """folder of the original crate, with its Cargo.toml, in place of the one that cargo fetches; a
.cargo/config.toml in it or above it says where cargo finds what that crate depends on"""


def original_flags(folder):
    """The flags with which cargo takes the original crate from a folder, under the folder's own configuration."""
    folder = os.path.abspath(folder)
    flags = ["--config", f'patch.crates-io.range-set-blaze.path="{folder}"']
    while True:
        config = os.path.join(folder, ".cargo", "config.toml")
        if os.path.exists(config):
            return [*flags, "--config", config]
        if os.path.dirname(folder) == folder:
            return flags
        folder = os.path.dirname(folder)


def built(peer, original=None):
    """The path of a peer's program, or None if it can't be built, which standard error then says."""
    folder = os.path.join(HERE, "peers", peer)
    words = ["cargo", "build", "--release", "--quiet"]
    if original and peer not in WITHOUT_ORIGINAL:
        words += original_flags(original)
    made = subprocess.run(words, cwd=folder, stderr=subprocess.PIPE, text=True)
    if made.returncode != 0:
        print(f"{peer}: not built, and left out: {' '.join(made.stderr.split()[-30:])}", file=sys.stderr)
        return None
    return os.path.join(folder, "target", "release", peer)


def linked(source, target):
    """Links a file, or copies it to another file system. `rt` replaces files, and never writes into them."""
    try:
        os.link(source, target)
    except OSError:
        shutil.copy2(source, target)


def made_room(folder, peer, uses="range_set_blaze"):
    """The folder of a program `app`, a peer's `here.rattle` over copies of the libraries, made in a folder. Those that
    are built need not be proved again."""
    root = Path(HERE).parent
    for crate in (root / "crates").iterdir():
        for part in ("src", "specs", "proofs", "out/rlib"):
            if (crate / part).is_dir():
                shutil.copytree(crate / part, folder / "crates" / crate.name / part, copy_function=linked)
    shutil.copy(root / "HANDLES", folder)
    (folder / "crates.txt").write_text((root / "crates.txt").read_text() + f"app: {uses}\n")
    source = folder / "crates" / "app" / "src"
    source.mkdir(parents=True)
    shutil.copy(Path(HERE) / "peers" / peer / "here.rattle", source / "main.rt")
    return source.parent


def proved(folder, peer, uses="range_set_blaze"):
    """The path of a peer's program over this library, proved and built in a folder. It also runs once, with no words."""
    room = made_room(Path(folder), peer, uses)
    made = subprocess.run(["rt", "run"], cwd=room, stdin=subprocess.DEVNULL, capture_output=True, text=True)
    if made.returncode != 0:
        sys.exit("rt run: " + "; ".join((made.stdout + made.stderr).splitlines()[-3:]))
    return room / "out" / "app"
