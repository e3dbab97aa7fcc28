"""Clean roots of Debian, in which a release is tried: no kit, no network, and nothing of this repository but what is put there."""
import os
import shutil
import subprocess
import tempfile
from pathlib import Path

from common import ROOT, Failed, need, run, say

KEPT = ROOT / "out" / "roots"
MIRROR = "http://deb.debian.org/debian"
COMMON = "gcc,g++,libc6-dev,make,cmake,pkg-config,python3,python3-dev,python3-venv,python3-pip,binutils,man-db"
RUST = "rustc-web,cargo-web"
POSTGRES = "postgresql-15"
# What each release of Debian has that the check uses, from the newest to the oldest.
RELEASES = {"bookworm": f"{COMMON},{RUST},{POSTGRES}", "bullseye": COMMON}
# Folders in which packages leave logs and caches that no package owns.
IGNORED = ("proc", "sys", "dev", "run", "tmp", "var/log", "var/cache", "var/lib/dpkg", "var/lib/apt", "srv")
ENVIRONMENT = {"PATH": "/usr/local/bin:/usr/bin:/bin:/usr/sbin:/sbin", "HOME": "/srv", "LC_ALL": "C.UTF-8", "LANG": "C.UTF-8"}


def root_archive(release):
    """Returns the archive of a root, which it fetches the first time."""
    need("mmdebstrap")
    kept = KEPT / f"{release}.tar"
    if not kept.exists():
        say(f"fetching {release}")
        KEPT.mkdir(parents=True, exist_ok=True)
        made = kept.with_suffix(".part.tar")
        run("mmdebstrap", "--variant=minbase", f"--include={RELEASES[release]}", release, made, MIRROR)
        made.rename(kept)
    return kept


class Root:
    """A root that is unpacked while it is used, and removed afterwards."""

    def __init__(self, release):
        if os.geteuid() != 0:
            raise Failed("--check changes roots, so only root can run it")
        need("unshare", "chroot", "tar")
        self.release = release
        self.folder = Path(tempfile.mkdtemp(prefix=f"root-{release}-"))

    def __enter__(self):
        run("tar", "-xf", root_archive(self.release), "-C", self.folder)
        (self.folder / "srv").mkdir(exist_ok=True)
        return self

    def __exit__(self, *_):
        shutil.rmtree(self.folder, ignore_errors=True)

    def path(self, name):
        """Returns where a file of the root is outside of it."""
        return self.folder / name.lstrip("/")

    def put(self, source, name):
        """Copies a file or a folder into the root."""
        to = self.path(name)
        to.parent.mkdir(parents=True, exist_ok=True)
        if source.is_dir():
            shutil.copytree(source, to)
        else:
            shutil.copy(source, to)

    def write(self, name, text):
        """Writes a file of the root."""
        to = self.path(name)
        to.parent.mkdir(parents=True, exist_ok=True)
        to.write_text(text)

    def ran(self, command, folder="/srv", **variables):
        """Runs a shell command in the root, without network, and returns its status and what it prints on both outputs."""
        words = ["unshare", "--mount", "--pid", "--net", "--fork", f"--mount-proc={self.path('proc')}"]
        words += ["chroot", str(self.folder), "sh", "-c", f"cd {folder} && {command}"]
        environment = {**ENVIRONMENT, **variables}
        ran = subprocess.run(words, env=environment, stdin=subprocess.DEVNULL, capture_output=True, text=True)
        return ran.returncode, ran.stdout + ran.stderr

    def files(self):
        """Returns the names of all files, except logs and caches."""
        found = set()
        for folder, folders, files in os.walk(self.folder):
            here = os.path.relpath(folder, self.folder)
            folders[:] = [it for it in folders if os.path.normpath(f"{here}/{it}") not in IGNORED]
            found.update(os.path.normpath(f"{here}/{it}") for it in [*folders, *files])
        return found
