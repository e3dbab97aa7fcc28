"""Finds links of the site that lead to no file or to no anchor, and requests to other hosts."""
import re
from html.parser import HTMLParser
from urllib.parse import unquote

# What other tools made. Their pages are only looked up.
OF_TOOLS = ("reference/c/", "reference/rust/")
ELSEWHERE = re.compile(r"^(?:[a-z]+:)?//")


class Page(HTMLParser):
    """The links, the anchors and the requests of a page."""

    def __init__(self, path):
        super().__init__()
        self.links, self.anchors, self.requests = [], set(), []
        self.feed(path.read_text(errors="replace"))

    def handle_starttag(self, tag, attributes):
        known = dict(attributes)
        self.anchors.update(known[name] for name in ("id", "name") if known.get(name))
        target = known.get("href") or known.get("src") or ""
        if tag == "a" and target:
            self.links.append(target)
        elif tag in ("img", "link", "script", "iframe", "source") and ELSEWHERE.match(target):
            if known.get("rel") not in ("canonical",):
                self.requests.append(target)


def faults(site):
    """Yields what is wrong with the links of a site."""
    pages = {}

    def page(path):
        return pages.setdefault(path, Page(path))

    for path in sorted(site.rglob("*.html")):
        name = str(path.relative_to(site))
        if name.startswith(OF_TOOLS) or name == "404.html":
            continue
        yield from (f"{name}: asks {request}" for request in page(path).requests)
        for target in page(path).links:
            file, _, anchor = unquote(target).partition("#")
            if re.match(r"^(?:[a-z]+:)?//|^(?:mailto|javascript):", target):
                continue
            led = (path.parent / file.partition("?")[0]).resolve() if file else path
            led = led / "index.html" if led.is_dir() else led
            if not led.exists():
                yield f"{name}: the link {target} leads nowhere"
            elif anchor and led.suffix == ".html" and anchor not in page(led).anchors and anchor != "__skip":
                yield f"{name}: the link {target} has no anchor"
