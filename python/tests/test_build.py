"""The wheels that build_backend.py writes, and what it says if it cannot."""

import os
import shutil
import subprocess
import sys
import tarfile
import tempfile
import unittest
import zipfile
from pathlib import Path

HERE = Path(__file__).resolve().parent.parent
SCRIPT = """
import sys
sys.path.insert(0, {here!r})
import build_backend
from pathlib import Path
build_backend.BUILT = Path({built!r})
{change}
print(build_backend.{call}({folder!r}))
"""
NAMED = os.environ.get("RANGE_SET_LIBRARY", "")


@unittest.skipUnless((HERE / "build_backend.py").exists() and shutil.which("cc"), "needs the sources of the package, and cc")
@unittest.skipUnless(NAMED or (HERE.parent / "out" / "lib" / "librange_set.a").exists(), "needs the C library")
class Wheels(unittest.TestCase):
    """Each build runs on a copy of the sources, so that it changes nothing here."""

    def setUp(self):
        self.folder = tempfile.TemporaryDirectory()
        self.top = Path(self.folder.name)
        self.addCleanup(self.folder.cleanup)
        left_out = shutil.ignore_patterns("*.so", "__pycache__")
        shutil.copytree(HERE, self.top / "python", ignore=left_out)
        shutil.copytree(self.header().parent, self.top / "include")
        (self.top / "wheels").mkdir()
        self.before = self.files()

    def header(self):
        """Returns the header of the library, or of the sources."""
        near = [self.library().parents[up] / "include" for up in range(1, 4)] + [HERE.parent / "include", HERE / "include"]
        return next(it / "range_set.h" for it in near if (it / "range_set.h").exists())

    def files(self):
        return {str(it.relative_to(self.top)) for it in self.top.rglob("*") if "__pycache__" not in it.parts}

    def build(self, call, built="/none", library=NAMED, change="", **variables):
        """Returns the status of a build, what it says, and the files that it leaves."""
        here, folder = str(self.top / "python"), str(self.top / "wheels")
        script = SCRIPT.format(here=here, call=call, built=str(built), folder=folder, change=change)
        environment = {**os.environ, "RANGE_SET_LIBRARY": str(library), "PYTHONDONTWRITEBYTECODE": "1", "CFLAGS": "-O0", **variables}
        ran = subprocess.run([sys.executable, "-c", script], capture_output=True, text=True, env=environment)
        return ran.returncode, ran.stdout + ran.stderr, self.files() - self.before

    def library(self):
        """Returns the path of the static library."""
        named = Path(NAMED) if NAMED else HERE.parent / "out"
        found = [it for it in (named, named / "lib" / "librange_set.a", named.with_name("librange_set.a")) if it.is_file()]
        return next(it for it in found if it.suffix == ".a")

    def runs(self, folder):
        """Checks that the package in a folder works, without the sources and the variable."""
        script = "from range_set import RangeSet; print(RangeSet([(1, 5)]) | {7})"
        words = [sys.executable, "-W", "error", "-c", script]
        environment = {**os.environ, "RANGE_SET_LIBRARY": "", "PYTHONPATH": str(folder)}
        ran = subprocess.run(words, capture_output=True, text=True, env=environment, cwd="/")
        self.assertEqual(ran.stdout + ran.stderr, "1..=5, 7..=7\n")

    def test_a_wheel_for_each_way_to_name_the_library(self):
        library = self.library()
        moved = self.top / "a b, é"
        (moved / "lib").mkdir(parents=True)
        shutil.copy(library, moved / "lib")
        shutil.copytree(self.top / "include", moved / "include")
        ways = [{"library": library}, {"library": moved}, {"library": moved / "lib" / "librange_set.a"}]
        ways += [{"library": moved / "lib" / "librange_set.so"}, {"library": "", "built": moved}]
        self.before = self.files()
        for way in ways:
            status, said, made = self.build("build_wheel", **way)
            self.assertEqual((status, len(made)), (0, 1), said)
            name = made.pop()
            self.assertRegex(name, r"^wheels/range_set-[0-9.]+-cp38-abi3-linux_\w+\.whl$")
            with zipfile.ZipFile(self.top / name) as wheel:
                self.assertEqual(wheel.testzip(), None)
                names = wheel.namelist()
                wheel.extractall(self.top / "installed")
            self.assertTrue({"range_set/_core.abi3.so", "range_set/_sets.py", "range_set/py.typed", "range_set/_core.pyi"} <= set(names))
            self.assertFalse([it for it in names if "librange_set" in it or it.endswith((".c", ".h", ".pyc"))])
            self.runs(self.top / "installed")
            shutil.rmtree(self.top / "installed")
            (self.top / name).unlink()

    def test_an_editable_wheel_names_the_folder(self):
        status, said, made = self.build("build_editable")
        self.assertEqual((status, len(made)), (0, 2), said)
        self.assertIn("python/range_set/_core.abi3.so", made)
        (wheel,) = self.top.glob("wheels/*.whl")
        with zipfile.ZipFile(wheel) as it:
            self.assertEqual(it.read("range_set.pth").decode(), f"{self.top / 'python'}\n")
            self.assertNotIn("range_set/_sets.py", it.namelist())
        self.runs(self.top / "python")

    def test_a_source_archive(self):
        status, said, made = self.build("build_sdist")
        self.assertEqual((status, len(made)), (0, 1), said)
        (archive,) = self.top.glob("wheels/*.tar.gz")
        with tarfile.open(archive) as it:
            names = {name.partition("/")[2] for name in it.getnames()}
            it.extractall(self.top / "unpacked")
        wanted = {"src/core.h", "src/set.c", "include/range_set.h", "range_set/_sets.py", "tests/kinds.py", "PKG-INFO", "pyproject.toml"}
        self.assertEqual(wanted - names, set())
        self.assertFalse([name for name in names if name.endswith((".so", ".pyc"))])
        (folder,) = (self.top / "unpacked").iterdir()
        script = f"import sys; sys.path.insert(0, {str(folder)!r}); import build_backend; build_backend.build_wheel({str(self.top)!r})"
        environment = {**os.environ, "RANGE_SET_LIBRARY": str(self.library())}
        subprocess.run([sys.executable, "-c", script], check=True, env=environment)

    def test_builds_that_fail_leave_nothing(self):
        other = self.top / "other"
        (other / "lib").mkdir(parents=True)
        subprocess.run(["cc", "-x", "c", "-c", "-", "-o", str(other / "none.o")], input="int none;", text=True, check=True)
        subprocess.run(["ar", "rc", str(other / "lib" / "librange_set.a"), str(other / "none.o")], check=True)
        self.before = self.files()
        broken = self.top / "python" / "src" / "broken.c"
        for why, said in (
            ({"library": ""}, "there is no C library.*tools/c/build.*RANGE_SET_LIBRARY"),
            ({"library": "/none/it.a"}, "RANGE_SET_LIBRARY is /none/it.a, and there is no librange_set.a"),
            ({"CC": "none-such"}, "there is no C compiler 'none-such'.*apt install gcc"),
            ({"change": "build_backend.sysconfig.get_path = lambda name: '/none'"}, "no Python.h in /none.*python3-dev"),
            ({"library": other}, "does not load.*may be of another version"),
            ({"change": "build_backend.VERSION = '9.9'"}, "range_set.h is of version .*, and this package of 9.9"),
            ({"broken": True}, "does not compile.*broken.c"),
        ):
            if why.pop("broken", False):
                broken.write_text("int broken = ;\n")
                self.before = self.files()
            for call in ("build_wheel", "build_editable"):
                status, text, made = self.build(call, **why)
                self.assertEqual((status, made), (1, set()), text)
                self.assertRegex(text.replace("\n", " "), said)
                self.assertNotIn("Traceback (most recent call last):\n  File \"<string>\"", text)


if __name__ == "__main__":
    unittest.main()
