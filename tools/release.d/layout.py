"""Lays out the tree of the archive: what a user unpacks, and what the other packages take their files from."""
import re
import shutil
import subprocess

from common import ARCHIVE, PROGRAMS, ROOT, VERSION, Failed, compatible, need, run

PAGES = ("README.md", "CHANGELOG.md", "CONTRIBUTING.md", "SECURITY.md", "CODE_OF_CONDUCT.md")
LICENCES = ("LICENSE-APACHE", "LICENSE-MIT", "NOTICE")
SHARED = f"librange_set.so.{VERSION}"
TEMPLATES = ROOT / "tools" / "c" / "package"
COMPLETIONS = ROOT / "tools" / "ip_lists" / "completions.bash"


def stripped(source, to, *flags):
    """Copies a file without the names and lines that only a debugger reads."""
    need("strip")
    run("strip", *flags, "-o", to, source)


def libraries(built, to):
    """Copies the two libraries, and links the names of the shared one."""
    to.mkdir(parents=True)
    stripped(built / "lib" / "librange_set.a", to / "librange_set.a", "--strip-debug", "--enable-deterministic-archives")
    if not (built / "lib" / SHARED).exists():
        raise Failed(f"{built} has no {SHARED}: tools/c/build says why")
    stripped(built / "lib" / SHARED, to / SHARED, "--strip-unneeded")
    (to / SHARED).chmod(0o644)
    (to / f"librange_set.so.{compatible()}").symlink_to(SHARED)
    (to / "librange_set.so").symlink_to(f"librange_set.so.{compatible()}")


def pkg_config(prefix, libdir, library_path):
    """Returns the file for pkg-config. `library_path` says whether a program gets the path of the library."""
    text = (TEMPLATES / "range_set.pc").read_text()
    text = re.sub(r"^# Written by.*\n", "", text).replace("@VERSION@", VERSION)
    for name, value in {"prefix": prefix, "libdir": libdir}.items():
        text = re.sub(rf"^{name}=.*$", lambda _: f"{name}={value}", text, flags=re.M)
    return text if library_path else text.replace(" -Wl,-rpath,${libdir}", "")


def cmake_files(libdir):
    """Yields the name and the text of each file for CMake. `libdir` is the folder of libraries below the prefix."""
    ups = "/".join([".."] * (len(libdir.split("/")) + 2))
    for name in ("range_setConfig.cmake", "range_setConfigVersion.cmake"):
        text = re.sub(r"^# Written by tools/c/build\. ", "# ", (TEMPLATES / name).read_text())
        text = text.replace("@VERSION@", VERSION).replace("@COMPATIBLE@", compatible())
        text = text.replace("${CMAKE_CURRENT_LIST_DIR}/../../..", "${CMAKE_CURRENT_LIST_DIR}/" + ups)
        yield name, text.replace("prefix}/lib/", "prefix}/" + libdir + "/")


def package_files(lib, prefix, libdir, below, library_path):
    """Writes what pkg-config and CMake read, in a folder of libraries."""
    (lib / "pkgconfig").mkdir()
    (lib / "pkgconfig" / "range_set.pc").write_text(pkg_config(prefix, libdir, library_path))
    (lib / "cmake" / "range_set").mkdir(parents=True)
    for name, text in cmake_files(below):
        (lib / "cmake" / "range_set" / name).write_text(text)


def programs(built, to):
    """Copies the programs."""
    to.mkdir()
    for name in PROGRAMS:
        stripped(built / "bin" / name, to / name, "--strip-all")


def shared_files(to):
    """Copies the man pages and the completions."""
    (to / "man" / "man1").mkdir(parents=True)
    for page in sorted((ROOT / "docs").glob("*.1")):
        shutil.copy(page, to / "man" / "man1")
    (to / "bash-completion" / "completions").mkdir(parents=True)
    shutil.copy(COMPLETIONS, to / "bash-completion" / "completions" / "ip_lists")


def tracked(folder):
    """Returns the names of the files of a folder that git knows."""
    listed = subprocess.run(["git", "ls-files", folder], cwd=ROOT, check=True, capture_output=True, text=True)
    return listed.stdout.split()


def pages(to):
    """Copies the pages, the examples and the licences, where their links find each other."""
    for name in [*LICENCES, *PAGES, *tracked("docs"), *tracked("examples")]:
        (to / name).parent.mkdir(parents=True, exist_ok=True)
        shutil.copy(ROOT / name, to / name)


def tree(built, folder):
    """Lays out the archive's tree in a folder, and returns its top."""
    top = folder / ARCHIVE
    top.mkdir(parents=True)
    shutil.copytree(built / "include", top / "include")
    libraries(built, top / "lib")
    package_files(top / "lib", "${pcfiledir}/../..", "${prefix}/lib", "lib", True)
    programs(built, top / "bin")
    shared_files(top / "share")
    pages(top)
    return top
