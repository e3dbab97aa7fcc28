"""A headless Chromium, driven over two pipes by its protocol for developers."""
import base64
import json
import os
import subprocess
import tempfile
import time

from staged import need

# No name but that of this host has an address, so a request to another host is an error of the console.
WORDS = ["--headless", "--no-sandbox", "--disable-gpu", "--hide-scrollbars", "--remote-debugging-pipe"]
ALONE = "--host-resolver-rules=MAP * ~NOTFOUND, EXCLUDE 127.0.0.1"
SECONDS = 120


class Chromium:
    """A browser with one page."""

    def __init__(self):
        need("chromium", "chromium")
        self.profile = tempfile.TemporaryDirectory(prefix="chromium-")
        asked, self.ask = os.pipe()
        self.told, telling = os.pipe()
        # The browser reads from the file 3, and writes to the file 4.
        shell = f"exec chromium {' '.join(WORDS)} '{ALONE}' --user-data-dir={self.profile.name} 3<&{asked} 4>&{telling}"
        self.process = subprocess.Popen(
            ["bash", "-c", shell], pass_fds=(asked, telling), stdout=subprocess.DEVNULL, stderr=subprocess.DEVNULL
        )
        os.close(asked), os.close(telling)
        self.number, self.rest, self.errors, self.session = 0, b"", [], None
        target = self.call("Target.createTarget", url="about:blank")["targetId"]
        self.session = self.call("Target.attachToTarget", targetId=target, flatten=True)["sessionId"]
        for part in ("Page", "Runtime", "Log"):
            self.call(f"{part}.enable")

    def __enter__(self):
        return self

    def __exit__(self, *_):
        self.process.terminate()
        self.process.wait()
        os.close(self.ask), os.close(self.told)
        self.profile.cleanup()

    def message(self):
        """Returns the next message of the browser."""
        while b"\0" not in self.rest:
            read = os.read(self.told, 1 << 16)
            if not read:
                raise RuntimeError("Chromium has ended")
            self.rest += read
        line, self.rest = self.rest.split(b"\0", 1)
        return json.loads(line)

    def call(self, method, **arguments):
        """Calls a method of the browser, and returns its result. Errors that the page reports meanwhile are kept."""
        self.number += 1
        call = {"id": self.number, "method": method, "params": arguments}
        call.update({"sessionId": self.session} if self.session else {})
        os.write(self.ask, json.dumps(call).encode() + b"\0")
        while True:
            told = self.message()
            if told.get("id") == self.number:
                if "error" in told:
                    raise RuntimeError(f"{method}: {told['error']['message']}")
                return told["result"]
            self.keep_error(told.get("method"), told.get("params", {}))

    def keep_error(self, method, told):
        """Keeps what the console shows as an error."""
        if method == "Runtime.exceptionThrown":
            self.errors.append(told["exceptionDetails"]["text"])
        elif method == "Log.entryAdded" and told["entry"]["level"] == "error":
            # The browser itself asks for an icon of the whole host, which is not the site's.
            if not told["entry"].get("url", "").endswith("/favicon.ico"):
                self.errors.append(f"{told['entry']['text']} {told['entry'].get('url', '')}")
        elif method == "Runtime.consoleAPICalled" and told["type"] == "error":
            self.errors.append(str(told["args"][0].get("value")))

    def value(self, expression):
        """Returns the value of an expression on the page."""
        return self.call("Runtime.evaluate", expression=expression, returnByValue=True)["result"].get("value")

    def open(self, url, width, height, is_dark):
        """Opens a page on a screen of a size, in a browser that is set to dark or to light."""
        # The site keeps whether it is dark from page to page.
        self.value("try { localStorage.clear() } catch { }")
        self.errors.clear()
        size = {"width": width, "height": height, "deviceScaleFactor": 1, "mobile": width < 600}
        self.call("Emulation.setDeviceMetricsOverride", **size)
        scheme = {"name": "prefers-color-scheme", "value": "dark" if is_dark else "light"}
        self.call("Emulation.setEmulatedMedia", features=[scheme])
        self.call("Page.navigate", url=url)

    def waits_for(self, expression):
        """Returns whether an expression becomes true on the page."""
        end = time.monotonic() + SECONDS
        while time.monotonic() < end:
            if self.value(f"Boolean({expression})"):
                return True
            time.sleep(0.2)
        return False

    def keep_picture(self, path):
        """Writes a picture of what the screen shows."""
        path.write_bytes(base64.b64decode(self.call("Page.captureScreenshot", format="png")["data"]))
