"""Installs each file of a release in clean roots of Debian, tries it there, removes it, and looks for what is left."""
import tarfile
import tempfile
import zipfile
from concurrent.futures import ThreadPoolExecutor
from pathlib import Path

import binaries
import debian
import layout
import package
import pages
import python_package
from common import ARCHIVE, PROGRAMS, ROOT, VERSION, Failed, run, say
from roots import RELEASES, Root, root_archive

# Where the files of the release are in a root, and where the check moves the folder of the archive.
FILES, MOVED = "/srv/release", "/srv/moved"
# How README's session in C names the file for pkg-config.
FOUND_BY = "PKG_CONFIG_PATH=$PWD/out/lib/pkgconfig "
CARGO = "cargo -q run --offline"
MISSING = "range_set_IS_MISSING__set_RANGE_SET_LIB_DIR"
# So that pip and apt ask nobody, and look for nothing elsewhere.
QUIET = {"PIP_NO_INDEX": "1", "PIP_DISABLE_PIP_VERSION_CHECK": "1", "PIP_QUIET": "1", "DEBIAN_FRONTEND": "noninteractive"}


class Trial:
    """A root, and how many facts it has shown."""

    def __init__(self, root):
        self.root, self.passed, self.failed = root, 0, 0

    def count(self, what, why):
        """Counts a fact, and says what is wrong with it, if something is."""
        self.passed, self.failed = self.passed + (not why), self.failed + bool(why)
        say(f"{self.root.release}: {what}: {'FAILED, ' + why if why else 'passed'}")

    def prints(self, what, command, wanted, **how):
        """Runs a command, and counts whether it ends well and prints what is wanted."""
        status, printed = self.root.ran(command, **how)
        is_right = status == 0 and (wanted is None or printed == wanted)
        self.count(what, "" if is_right else f"status {status}, prints {printed[-2000:]!r}")

    def refuses(self, what, command, word, **how):
        """Runs a command, and counts whether it fails and names a word."""
        status, printed = self.root.ran(command, **how)
        self.count(what, "" if status and word in printed else f"status {status}, prints {printed[-2000:]!r}")

    def leaves_nothing(self, what, before):
        """Counts whether the root has the files that it had before."""
        changed = sorted(before ^ self.root.files())
        self.count(f"{what} leaves nothing", f"{len(changed)} files differ: {changed[:9]}" if changed else "")


def put_files(root, out):
    """Writes the files of the release, README's programs, the examples and the lists of the sessions to /srv."""
    for file in (path for path in out.rglob("*") if path.is_file()):
        root.put(file, f"{FILES}/{file.relative_to(out)}")
    source, _, _ = pages.c_session()
    for folder in ("", "/project", "/release"):
        root.write(f"/srv{folder}/session.c", source)
    root.write("/srv/readme.txt", pages.python_session())
    for name in pages.EXAMPLES:
        root.put(ROOT / "examples" / name, f"/srv/{name}")
    for name in ("a", "b"):
        root.put(ROOT / "crates" / "ip_lists" / "data" / name, f"/srv/lists/{name}")
    root.put(ROOT / "crates" / "rsb_run" / "stdin", "/srv/stdin")
    root.write("/srv/project/CMakeLists.txt", pages.cmake_project(VERSION))


def try_c(trial, where, found_by):
    """Tries README's command, and the C++ example. `found_by` names the file for pkg-config, if it has to be named."""
    _, command, printed = pages.c_session()
    trial.prints(f"README's session in C, {where}", command.replace(FOUND_BY, found_by), printed)
    build = f"c++ -std=c++17 ranges.cpp $({found_by}pkg-config --cflags --libs range_set) -o ranges && ./ranges"
    trial.prints(f"the example in C++, {where}", build, pages.EXAMPLES["ranges.cpp"])


def try_cmake(trial, where, prefix):
    """Tries a project of CMake over both libraries."""
    build = f"(rm -rf made && cmake -S project -B made {prefix} && cmake --build made) >said 2>&1 || {{ cat said; exit 1; }}"
    _, _, printed = pages.c_session()
    trial.prints(f"a CMake project, {where}", f"{build}; made/with_shared && made/with_static", printed * 2)


def try_programs(trial, where, before, names):
    """Tries the sessions of ip_lists, and whether `man` finds the pages of programs. `before` sets the PATH."""
    for command, printed in pages.session("README.md", "printf"):
        trial.prints(f"{command[:30]!r} of README, {where}", f"{before}{command}", printed)
    for command, printed in pages.session("docs/IP_LISTS.md", "ip_lists"):
        trial.prints(f"{command!r} of its manual, {where}", f"{before}{command}", printed, folder="/srv/lists")
    for name in names:
        title = f"{name.upper()}(1)"
        shown = f"{before}man {name} | grep -c '^{title}.*{title}$'"
        trial.prints(f"man {name}, {where}", shown, "1\n", MANWIDTH="80")


def try_python(trial, where, python):
    """Tries the example and README's session in Python."""
    trial.prints(f"the example in Python, {where}", f"{python} ranges.py", pages.EXAMPLES["ranges.py"])
    trial.prints(f"README's session in Python, {where}", f"{python} -m doctest readme.txt", "")


def try_rust(trial, where, **variables):
    """Tries the example in a project over the unpacked crate."""
    trial.prints(f"the example in Rust, {where}", CARGO, pages.EXAMPLES["ranges.rs"], folder="/srv/app", **variables)


def try_archive(trial):
    """Unpacks the archive as README does, moves it, and tries what it has."""
    where, before = "over the archive", f"PATH={MOVED}/bin:$PATH; "
    trial.prints("README's command unpacks the archive", pages.install("linux-x86_64"), "", folder=FILES)
    _, command, printed = pages.c_session()
    trial.prints("README's session in C, word for word", command, printed, folder=FILES)
    trial.prints("the folder is moved", f"mv {FILES}/out {MOVED}", "")
    try_c(trial, where, f"PKG_CONFIG_PATH={MOVED}/lib/pkgconfig ")
    build = f"cc session.c -I{MOVED}/include {MOVED}/lib/librange_set.a -o session && ./session"
    trial.prints("README's session in C, over the static library", build, printed)
    try_cmake(trial, where, f"-DCMAKE_PREFIX_PATH={MOVED}")
    try_programs(trial, where, before, PROGRAMS)
    worked = (ROOT / "crates" / "rsb_run" / "stdout").read_text()
    trial.prints("rsb_run on the worked input", f"{before}rsb_run <stdin", worked)


def try_pip(trial, what, install, **variables):
    """Installs the wheel or the source archive with pip, tries it, and removes it."""
    inside = ". /srv/venv/bin/activate; "
    trial.prints(f"a virtual environment for {what}", "rm -rf venv && python3 -m venv venv", None)
    trial.prints(f"pip installs {what}", inside + install, None, folder=FILES, **QUIET, **variables)
    try_python(trial, f"from {what}", "venv/bin/python")
    trial.prints(f"pip removes {what}", f"{inside}pip uninstall --yes range-set", None, **QUIET)
    trial.prints(f"{what} leaves nothing", "find venv -iname '*range[_-]set*'", "")


def try_crate(trial):
    """Builds a program over the Rust crate, with each way to find the library in a folder, and with none."""
    here = {"folder": "/srv/app"}
    trial.prints("README's command unpacks the crate", pages.install("crate"), "", folder=FILES)
    trial.root.write("/srv/app/Cargo.toml", '[package]\nname = "app"\nversion = "0.0.0"\nedition = "2021"\n')
    trial.root.put(ROOT / "examples" / "ranges.rs", "/srv/app/src/main.rs")
    trial.prints("cargo add", f"cargo -q add --offline --path {FILES}/range_set-{VERSION}", None, **here)
    trial.prints("cargo check without the library", "cargo check --offline", None, **here)
    trial.refuses("cargo run without the library says what is missing", CARGO, MISSING, **here)
    try_rust(trial, "over RANGE_SET_LIB_DIR", RANGE_SET_LIB_DIR=f"{MOVED}/lib")
    try_rust(trial, "over pkg-config", PKG_CONFIG_PATH=f"{MOVED}/lib/pkgconfig")


def try_packages(trial, has_rust):
    """Installs the Debian packages as README does, tries them without the archive, and purges them."""
    where, before = "over the packages", trial.root.files()
    trial.prints("the archive's folder is removed", f"rm -rf {MOVED} app/target", "")
    trial.prints("README's command installs the packages", pages.install("*.deb"), None, folder=FILES, **QUIET)
    try_c(trial, where, "")
    try_cmake(trial, where, "")
    try_python(trial, where, "python3")
    if has_rust:
        try_rust(trial, where)
    try_programs(trial, where, "", ("ip_lists",))
    completed = "COMP_WORDS=(ip_lists co); COMP_CWORD=1; _ip_lists; echo ${COMPREPLY[*]}"
    load = f". /usr/share/bash-completion/completions/ip_lists; {completed}"
    trial.prints("bash completes an operation", f"bash -c '{load}'", "common complement count\n")
    trial.prints("dpkg removes the packages", f"dpkg -P {' '.join(reversed(debian.PACKAGES))}", None)
    trial.leaves_nothing("the removal of the packages", before)


def try_postgres(trial):
    """Installs the package for PostgreSQL, tries the page's query in a server of one process, and purges the package."""
    before = trial.root.files()
    trial.prints("dpkg installs the package for PostgreSQL", f"dpkg -i {FILES}/{debian.POSTGRES_FOLDER}/*.deb", None)
    server, data = "/usr/lib/postgresql/15/bin", "/tmp/sets"
    trial.prints("a cluster is made", f"su postgres -c '{server}/initdb -A trust -D {data} >/dev/null'", "")
    asks = f"{server}/postgres --single -D {data} postgres 2>/dev/null </srv/query.sql | grep -o '{pages.SETS_OF_POSTGRES[1]}'"
    trial.root.write("/srv/query.sql", pages.SETS_OF_POSTGRES[0])
    trial.prints("the query of docs/DATA.md", f'su postgres -c "{asks}"', pages.SETS_OF_POSTGRES[1] + "\n")
    trial.prints("dpkg removes the package for PostgreSQL", f"rm -r {data} /srv/query.sql; dpkg -P {debian.POSTGRES}", None)
    trial.leaves_nothing("the package for PostgreSQL", before)


def try_release(release, out):
    """Tries all of a release on a release of Debian, and returns how many facts passed and failed."""
    has_rust = "rustc" in RELEASES[release]
    with Root(release) as root:
        trial = Trial(root)
        put_files(root, out)
        before = root.files()
        trial.refuses("the root has no kit", "command -v rt || exit 1", "")
        try_archive(trial)
        trial.leaves_nothing("the archive, outside its folder,", before)
        try_pip(trial, "the wheel", pages.install(".whl"))
        try_pip(trial, "the source archive", f"pip install {python_package.NAME}.tar.gz", RANGE_SET_LIBRARY=MOVED)
        if has_rust:
            try_crate(trial)
        else:
            say(f"{release}: left out: the Rust crate, since its rustc is older than 1.82")
        try_packages(trial, has_rust)
        if "postgresql" in RELEASES[release] and (out / debian.POSTGRES_FOLDER).exists():
            try_postgres(trial)
        else:
            say(f"{release}: left out: the package for PostgreSQL 15")
        return trial.passed, trial.failed


def check_files(out):
    """Checks the sums, the programs in the archive and the wheel's tag, and says how big the programs are."""
    run("sha256sum", "--check", "--quiet", "SHA256SUMS", cwd=out)
    with tempfile.TemporaryDirectory() as folder:
        with tarfile.open(out / f"{ARCHIVE}.tar.gz") as archive:
            archive.extractall(folder)
        tree = Path(folder) / ARCHIVE
        package.check_binaries(tree)
        for path in [*(tree / "bin").iterdir(), tree / "lib" / layout.SHARED]:
            say(binaries.described(path))
        wheel = next(out.glob("*.whl"))
        with zipfile.ZipFile(wheel) as archive:
            module = python_package.checked_module(archive.read(python_package.MODULE), Path(folder))
        say(binaries.described(module))
        if python_package.tag(module)[1] not in wheel.name:
            raise Failed(f"{wheel.name} has another tag than its module needs")


def release(out):
    """Checks a release, and returns the exit status."""
    if not (out / "SHA256SUMS").exists():
        raise Failed(f"{out} has no release: run tools/release first")
    check_files(out)
    for name in RELEASES:
        root_archive(name)
    with ThreadPoolExecutor() as pool:
        counts = list(pool.map(lambda name: try_release(name, out), RELEASES))
    failed = sum(count[1] for count in counts)
    say(f"{sum(count[0] for count in counts)} passed, {failed} failed")
    return int(bool(failed))
