"""Opens the site in headless Chromium, and looks at what it shows."""
import functools
import http.server
import threading

from chromium import Chromium

WIDE, NARROW = (1280, 900), (390, 844)
# Each picture, the page, the size of the screen, and what has to be true once the page is there.
VIEWS = (
    ("first-page", "index.html", WIDE, "document.querySelector('h1') && document.body.innerText.includes('sorted ranges')"),
    ("search", "index.html?q=ranges_remove", WIDE, "document.querySelector('.md-search-result a[href*=\"API.html\"]')"),
    ("narrow", "docs/C.html", NARROW, "document.querySelector('h1') && document.body.scrollWidth <= innerWidth"),
    ("python", "reference/python.html", WIDE, "document.body.innerText.includes('symmetric_difference_update')"),
    ("c", "reference/c/range__set_8h.html", WIDE, "document.body.innerText.includes('rsb_u64_insert_range')"),
    ("rust", "reference/rust/range_set/struct.RangeSet.html", WIDE, "document.body.innerText.includes('try_insert')"),
    ("dark", "docs/IP_LISTS.html", NARROW, "document.body.dataset.mdColorScheme == 'slate'"),
    ("dark-c", "reference/c/index.html", WIDE, "getComputedStyle(document.documentElement).filter != 'none'"),
)


class Silent(http.server.SimpleHTTPRequestHandler):
    """Serves files, and says nothing."""

    def log_message(self, *_):
        pass


def served(site):
    """Serves the site on this host, and returns the server."""
    server = http.server.ThreadingHTTPServer(("127.0.0.1", 0), functools.partial(Silent, directory=str(site)))
    threading.Thread(target=server.serve_forever, daemon=True).start()
    return server


def faults(site, pictures):
    """Yields what is wrong with what the site shows, and leaves a picture of each view in a folder."""
    pictures.mkdir(parents=True, exist_ok=True)
    server = served(site)
    with Chromium() as browser:
        for name, page, size, expression in VIEWS:
            browser.open(f"http://127.0.0.1:{server.server_address[1]}/{page}", *size, is_dark=name.startswith("dark"))
            if not browser.waits_for(f"document.readyState == 'complete' && {expression}"):
                yield f"{name}: {page} does not show what it should"
            browser.keep_picture(pictures / f"{name}.png")
            yield from (f"{name}: {error}" for error in browser.errors)
    server.shutdown()
