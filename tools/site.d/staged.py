"""Copies the pages to a folder in the form that mkdocs reads, and calls mkdocs."""
import os
import re
import shutil
import subprocess
import sys
from pathlib import Path

ROOT = Path(__file__).resolve().parent.parent.parent
FENCED = re.compile(r"(^ *```.*?^ *```$)", re.M | re.S)
COMMENT = re.compile(r"^ *<!--.*?-->\n", re.M | re.S)
LINK = re.compile(r"(\[[^\]]*\]\()([^)\s]+)(\))")
# Where links to folders of the repository lead in the site.
FOLDERS = {"python": "reference/python.md", "rust": "reference/rust/range_set/index.html"}
LOST = "does not lead to a file of the repository"


def need(program, package):
    """Ends the program if another is missing, and says which package has it."""
    if not shutil.which(program):
        sys.exit(f"{program} is missing: install {package}")


def relative(target, page):
    """Returns a link from a page to a target, both relative to the top."""
    return os.path.relpath(target, page.parent)


def link_of(target, page, to):
    """Returns where a link of a page leads in the site. A picture is copied, and any other file that is no page as text."""
    name, _, anchor = target.partition("#")
    if not name or re.match(r"[a-z]+:", target) or name.endswith(".md"):
        return target
    file = Path(os.path.normpath(page.parent / name))
    if str(file) in FOLDERS:
        return relative(FOLDERS[str(file)], page)
    if not (ROOT / file).is_file():
        sys.exit(f"{page}: the link {target} {LOST}")
    copy = file if file.suffix == ".svg" else Path("files") / f"{file}.txt"
    (to / copy).parent.mkdir(parents=True, exist_ok=True)
    shutil.copy(ROOT / file, to / copy)
    return relative(copy, page)


def text_of(page, to):
    """Returns a page without comments, and with links that lead into the site."""
    parts = FENCED.split(COMMENT.sub("", (ROOT / page).read_text()))
    led = lambda match: match[1] + link_of(match[2], page, to) + match[3]
    return "".join(part if at % 2 else LINK.sub(led, part) for at, part in enumerate(parts))


def pages(to):
    """Copies all pages of the repository."""
    for path in [*sorted(ROOT.glob("*.md")), *sorted((ROOT / "docs").glob("*.md"))]:
        page = path.relative_to(ROOT)
        (to / page).parent.mkdir(parents=True, exist_ok=True)
        (to / page).write_text(text_of(page, to))


def mkdocs(pages, room, out):
    """Builds the site from a folder of pages. Its time is that of the commit, so that it has the same bytes each time."""
    need("mkdocs", "mkdocs and mkdocs-material")
    settings = (Path(__file__).with_name("mkdocs.yml")).read_text()
    others = [f", docs/{page.name}" for page in sorted((pages / "docs").glob("*.md")) if f"docs/{page.name}" not in settings]
    for name, value in {"PAGES": str(pages), "OUT": str(out), "OTHERS": "".join(others)}.items():
        settings = settings.replace(f"@{name}@", value)
    (room / "mkdocs.yml").write_text(settings)
    time = subprocess.run(["git", "log", "-1", "--format=%ct"], cwd=ROOT, capture_output=True, text=True).stdout.strip()
    environment = {"SOURCE_DATE_EPOCH": time, **os.environ}
    words = ["mkdocs", "build", "--quiet", "--config-file", str(room / "mkdocs.yml")]
    ran = subprocess.run(words, env=environment, capture_output=True, text=True)
    if ran.returncode:
        sys.exit(ran.stdout + ran.stderr)
    for name in ("sitemap.xml", "sitemap.xml.gz"):
        (out / name).unlink(missing_ok=True)
