"""The pictures of docs/images are drawn from the figures that are there. bench/plots writes into each picture the name and
the digest of the file that it is drawn from."""
import hashlib
import re
from pathlib import Path

ROOT = Path(__file__).resolve().parent.parent
IMAGES = ROOT / "docs" / "images"
DRAWN_FROM = re.compile(r"(bench/figures/[\w.-]+), sha256 ([0-9a-f]{64})")
SHOWN = re.compile(r"\]\(images/([\w.-]+)\)")


def fault(picture):
    """Why a picture is not drawn from the figures that are there, or None."""
    found = DRAWN_FROM.search(picture.read_text())
    if not found:
        return "does not name its figures"
    file = ROOT / found[1]
    if not file.is_file() or hashlib.sha256(file.read_bytes()).hexdigest() != found[2]:
        return f"is drawn from other figures than those of {found[1]} (bench/plots)"
    return None


def faults():
    """What is wrong with the pictures, each after the picture's name."""
    shown = {name for page in (ROOT / "docs").glob("*.md") for name in SHOWN.findall(page.read_text())}
    for picture in sorted(IMAGES.glob("*.svg")):
        why = fault(picture) or (None if picture.name in shown else "is on no page")
        if why:
            yield f"{picture.relative_to(ROOT)} {why}"
