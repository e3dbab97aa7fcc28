"""Makes the Debian packages (docs/DECISIONS.md, binary-packages), and has lintian read them."""
import email.utils
import os
import re
import shutil
import subprocess
from pathlib import Path

import archives
import binaries
import layout
import python_package
from common import ROOT, VERSION, Failed, compatible, need, release_time, run, say

TEMPLATES = Path(__file__).resolve().with_name("debian")
REVISION = f"{VERSION}-1"
LIBRARY = f"librange-set{compatible()}"
MULTIARCH = "x86_64-linux-gnu"
LIBRARIES = f"usr/lib/{MULTIARCH}"
PACKAGES = {LIBRARY: "library", "librange-set-dev": "development", "python3-range-set": "python", "ip-lists": "programs"}
TRIGGER = "activate-noawait ldconfig\n"
# The package for PostgreSQL is in a folder of its own, so that README's command does not install PostgreSQL.
POSTGRES = "postgresql-15-range-set"
POSTGRES_FOLDER = "postgresql"
PGXS = Path("/usr/lib/postgresql/15/lib/pgxs/src/makefiles/pgxs.mk")


def maintainer():
    """Returns who maintains the packages: DEBFULLNAME and DEBEMAIL, as for Debian's tools, or the last committer."""
    last = run("git", "-C", ROOT, "log", "-1", "--format=%cn%n%ce").splitlines()
    name, address = os.environ.get("DEBFULLNAME", last[0]), os.environ.get("DEBEMAIL", last[1])
    return f"{name} <{address}>"


def write(path, data, mode=0o644):
    """Writes a file, and the folders above it."""
    path.parent.mkdir(parents=True, exist_ok=True)
    path.write_bytes(data if isinstance(data, bytes) else data.encode())
    path.chmod(mode)


def copied(source, to):
    """Copies a file or a link, and makes the folders above it."""
    to.parent.mkdir(parents=True, exist_ok=True)
    shutil.copy2(source, to, follow_symlinks=False)


def documents(room, name):
    """Writes what each package has in its folder of documents."""
    folder = room / "usr" / "share" / "doc" / name
    licence = (ROOT / "LICENSE-MIT").read_text().split("\n\n", 2)[2]
    lines = "\n".join(f" {line}" if line.strip() else " ." for line in licence.strip().splitlines())
    write(folder / "copyright", (TEMPLATES / "copyright").read_text().replace("@MIT@", lines))
    time = email.utils.formatdate(release_time())
    entry = f"range-set ({REVISION}) unstable; urgency=medium\n\n  * Version {VERSION}.\n\n -- {maintainer()}  {time}\n"
    write(folder / "changelog.Debian.gz", archives.compressed(entry.encode()))
    write(folder / "changelog.gz", archives.compressed((ROOT / "CHANGELOG.md").read_bytes()))


def library_files(tree, room):
    """Copies the shared library."""
    for name in (layout.SHARED, f"librange_set.so.{compatible()}"):
        copied(tree / "lib" / name, room / LIBRARIES / name)
    write(room / "DEBIAN" / "triggers", TRIGGER)
    write(room / "DEBIAN" / "shlibs", f"librange_set {compatible()} {LIBRARY} (>= {VERSION})\n")
    write(room / "DEBIAN" / "symbols", symbols(tree / "lib" / layout.SHARED))


def symbols(library):
    """Returns the symbols that the library exports, each since the first version with these calls."""
    rows = re.findall(r"^\S+ +g +D\w* +\S+\t\S+ +(?:\(?(\S+?)\)? +)?(\w+)$", run("objdump", "-T", library), re.M)
    since = f"{compatible()}.0" if compatible().startswith("0.") else f"{compatible()}.0.0"
    lines = sorted({f" {name}@{version or 'Base'} {since}" for version, name in rows})
    return "\n".join([f"librange_set.so.{compatible()} {LIBRARY} #MINVER#", *lines, ""])


def development_files(tree, room):
    """Copies the headers, the static library and what finds them, and the examples."""
    shutil.copytree(tree / "include", room / "usr" / "include")
    copied(tree / "lib" / "librange_set.a", room / LIBRARIES / "librange_set.a")
    (room / LIBRARIES / "librange_set.so").symlink_to(f"librange_set.so.{compatible()}")
    layout.package_files(room / LIBRARIES, "/usr", "${prefix}/lib/" + MULTIARCH, f"lib/{MULTIARCH}", False)
    documents_of = room / "usr" / "share" / "doc" / "librange-set-dev"
    for name in ("ranges.cpp", "ranges.rs"):
        copied(tree / "examples" / name, documents_of / "examples" / name)


def python_files(tree, room):
    """Copies the Python package, whose module has the library inside (docs/DECISIONS.md, static-module)."""
    files = python_package.contents(tree)
    packages = room / "usr/lib/python3/dist-packages"
    for name, data in files.items():
        if name.startswith("range_set/"):
            write(packages / name, data)
    information = f"{python_package.NAME}.dist-info"
    write(packages / information / "METADATA", files[f"{information}/METADATA"])
    write(packages / information / "INSTALLER", "debian\n")
    for name in ("postinst", "prerm"):
        write(room / "DEBIAN" / name, (TEMPLATES / f"python.{name}").read_text(), 0o755)
    copied(tree / "examples" / "ranges.py", room / "usr/share/doc/python3-range-set/examples/ranges.py")


def program_files(tree, room):
    """Copies ip_lists, its man page and its completions."""
    copied(tree / "bin" / "ip_lists", room / "usr/bin/ip_lists")
    page = (tree / "share/man/man1/ip_lists.1").read_bytes()
    write(room / "usr/share/man/man1/ip_lists.1.gz", archives.compressed(page))
    completions = "bash-completion/completions/ip_lists"
    copied(tree / "share" / completions, room / "usr/share" / completions)


def postgres_files(tree, room):
    """Builds the extension for PostgreSQL over the static library, and copies its files."""
    sources = room.parent / "postgres"
    shutil.copytree(ROOT / "postgres", sources)
    run("make", "-s", "-C", sources, "COPT=-g0", f"PREFIX={tree}", f"DESTDIR={room}", "install")
    run("strip", "--strip-unneeded", room / "usr/lib/postgresql/15/lib/range_set.so")
    shutil.rmtree(sources)


FILES = {"library": library_files, "development": development_files, "python": python_files, "programs": program_files, "postgres": postgres_files}


def control(kind, room):
    """Returns the control file of a package."""
    size = sum((path.lstat().st_size + 1023) // 1024 for path in room.rglob("*") if path.is_file())
    code = [path for path in room.rglob("*") if path.is_file() and path.read_bytes()[:4] == b"\x7fELF"]
    filled = {
        "GLIBC": ".".join(map(str, binaries.glibc_needed(*code))),
        "LIBRARY": LIBRARY,
        "DEBIAN_VERSION": REVISION,
        "MAINTAINER": maintainer(),
        "SIZE": str(size),
    }
    text = (TEMPLATES / f"{kind}.control").read_text()
    for name, value in filled.items():
        text = text.replace(f"@{name}@", value)
    return text


def sums(room):
    """Returns the sums of the files of a package, as dpkg keeps them."""
    files = [path for path in sorted(room.rglob("*")) if path.is_file() and not path.is_symlink()]
    lines = []
    for path in files:
        name = path.relative_to(room)
        if name.parts[0] != "DEBIAN":
            lines.append(run("md5sum", path).split()[0] + f"  {name}\n")
    return "".join(lines)


def package(name, kind, tree, folder, out):
    """Makes a package, and returns its path."""
    room = folder / "debian" / name
    room.mkdir(parents=True)
    documents(room, name)
    FILES[kind](tree, room)
    write(room / "DEBIAN" / "control", control(kind, room))
    write(room / "DEBIAN" / "md5sums", sums(room))
    for path in [room, *room.rglob("*")]:
        if not path.is_symlink():
            path.chmod(archives.mode_of(path))
    environment = {**os.environ, "SOURCE_DATE_EPOCH": str(release_time())}
    made = out / f"{name}_{REVISION}_amd64.deb"
    run("dpkg-deb", "--build", "--root-owner-group", "-Zxz", "--threads-max=1", room, made, env=environment)
    return made


def lint(made):
    """Has lintian read the packages, prints its warnings, and ends the release if it has an error."""
    ran = subprocess.run(["lintian", "--allow-root", "--tag-display-limit", "0", *map(str, made)], capture_output=True, text=True)
    for line in ran.stdout.splitlines():
        say(f"lintian: {line}")
    if re.search(r"^E:", ran.stdout, re.M) or ran.returncode not in (0, 1):
        raise Failed(f"lintian found an error {ran.stderr}")


def packages(tree, folder, out):
    """Makes all packages from a tree of the archive."""
    need("dpkg-deb", "xz", "lintian")
    made = [package(name, kind, tree, folder, out) for name, kind in PACKAGES.items()]
    if PGXS.is_file():
        (out / POSTGRES_FOLDER).mkdir()
        made.append(package(POSTGRES, "postgres", tree, folder, out / POSTGRES_FOLDER))
    else:
        say(f"left out: {POSTGRES}, which needs Debian's postgresql-server-dev-15")
    lint(made)
