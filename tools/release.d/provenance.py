"""States what was proved, by which kit, at which commit, and what the files of the archive are."""
import archives
import binaries
from common import PROGRAMS, VERSION, git, run
from layout import SHARED


# What the proofs cover.
COVERED = """
Proved are the functions of the C library and the two programs. docs/PROVED.md says what that means, and what
is only tested. The headers' own functions, the C++ class, the Python package and the Rust crate are only tested."""


def proofs(built):
    """Returns what the kit said and what that covers, or that nothing of it is known."""
    proved = built / "PROVED"
    if not proved.exists():
        return ["Nothing is known of the proofs of these files: they were not built by tools/release."]
    kit, commit, *crates = proved.read_text().splitlines()
    return [f"Kit: {kit}", f"Commit of the proofs: {commit}", f"Proved crates, with all below them: {', '.join(crates)}", COVERED]


def text(built, tree):
    """Returns the statement for a tree of the archive."""
    files = [tree / "lib" / "librange_set.a", tree / "lib" / SHARED, *(tree / "bin" / name for name in PROGRAMS)]
    compiler = run("cc", "--version").splitlines()[0]
    lines = [
        f"Wooljasper {VERSION}, for Linux on x86-64-v2.",
        "",
        f"Commit: {git('rev-parse', 'HEAD')}",
        *proofs(built),
        "",
        f"The shared library and the programs were linked by: {compiler}",
        "",
        "SHA-256, as in this archive:",
        *(f"  {archives.sum_of(path)}  {path.relative_to(tree)}" for path in files),
        "",
        *(binaries.described(path) for path in files[1:]),
    ]
    return "\n".join(lines) + "\n"
