"""Drives headless Chromium by the pipe of its debugging protocol."""

import base64
import json
import os
import shutil
import subprocess
import tempfile
import time

PROGRAMS = ("chromium", "chromium-browser", "google-chrome")
OPTIONS = ["--headless=new", "--remote-debugging-pipe", "--no-first-run", "--disable-gpu", "--disable-extensions",
           "--hide-scrollbars"]
# The seconds in which an answer or a state of the page has to come.
PATIENCE = 30


class BrowserError(Exception):
    """What Chromium, or a script in its page, reports as an error."""


def find_chromium():
    """Returns the path of Chromium, or None if it is not installed."""
    return next(filter(None, map(shutil.which, PROGRAMS)), None)


class Chromium:
    """A browser with one page. It ends, and its folder is removed, with the block."""

    def __init__(self, path):
        self.folder = tempfile.mkdtemp(prefix="interop-chromium-")
        ours_in, theirs_out = os.pipe()
        theirs_in, ours_out = os.pipe()
        # (the sandbox of Chromium needs another user than root)
        root = ["--no-sandbox"] if os.geteuid() == 0 else []
        words = [path, *OPTIONS, *root, f"--user-data-dir={self.folder}", "about:blank"]
        self.process = subprocess.Popen(
            ["bash", "-c", f'exec "$@" 3<&{theirs_in} 4>&{theirs_out}', "bash", *words],
            stdin=subprocess.DEVNULL, stdout=subprocess.DEVNULL, stderr=subprocess.DEVNULL,
            pass_fds=(theirs_in, theirs_out),
        )
        os.close(theirs_in)
        os.close(theirs_out)
        self.source, self.target = os.fdopen(ours_in, "rb"), os.fdopen(ours_out, "wb")
        self.count, self.session, self.errors, self.rest = 0, None, [], b""

    def __enter__(self):
        target = self.ask("Target.createTarget", url="about:blank")["targetId"]
        self.session = self.ask("Target.attachToTarget", targetId=target, flatten=True)["sessionId"]
        for name in ("Page", "Runtime", "Log", "Network"):
            self.ask(f"{name}.enable")
        return self

    def __exit__(self, *_):
        self.target.close()
        try:
            self.process.wait(10)
        except subprocess.TimeoutExpired:
            self.process.kill()
            self.process.wait()
        self.source.close()
        shutil.rmtree(self.folder, ignore_errors=True)

    def read(self):
        """Returns the next message of the browser."""
        while b"\0" not in self.rest:
            octets = os.read(self.source.fileno(), 65536)
            if not octets:
                raise BrowserError("Chromium ended")
            self.rest += octets
        message, self.rest = self.rest.split(b"\0", 1)
        return json.loads(message)

    def ask(self, method, **values):
        """Returns the result of a method. Errors of the page that come meanwhile are kept."""
        self.count += 1
        request = {"id": self.count, "method": method, "params": values}
        if self.session:
            request["sessionId"] = self.session
        self.target.write(json.dumps(request).encode() + b"\0")
        self.target.flush()
        while True:
            message = self.read()
            if message.get("id") == self.count:
                if "error" in message:
                    raise BrowserError(f"{method}: {message['error']['message']}")
                return message["result"]
            self.keep_error(message)

    def keep_error(self, message):
        """Keeps what the page reports as an error or a warning."""
        values = message.get("params", {})
        if message.get("method") == "Runtime.exceptionThrown":
            self.errors.append(values["exceptionDetails"]["text"])
        elif message.get("method") == "Log.entryAdded" and values["entry"]["level"] in ("error", "warning"):
            self.errors.append(values["entry"]["text"])
        elif message.get("method") == "Runtime.consoleAPICalled" and values["type"] in ("error", "warning", "assert"):
            self.errors.append(json.dumps(values["args"]))

    def open(self, address):
        """Opens an address."""
        self.ask("Page.navigate", url=address)

    def look(self, width, height, scheme):
        """Sets the size of the window and the colour scheme."""
        size = {"width": width, "height": height, "deviceScaleFactor": 1, "mobile": width < 500}
        self.ask("Emulation.setDeviceMetricsOverride", **size)
        self.ask("Emulation.setEmulatedMedia", features=[{"name": "prefers-color-scheme", "value": scheme}])

    def value(self, expression):
        """Returns the value of an expression of JavaScript in the page."""
        found = self.ask("Runtime.evaluate", expression=expression, returnByValue=True, awaitPromise=True)
        if "exceptionDetails" in found:
            raise BrowserError(f"{expression}: {found['exceptionDetails']['exception']['description']}")
        return found["result"].get("value")

    def wait(self, expression, seconds=PATIENCE):
        """Waits until an expression is true. Returns the seconds that passed, or None if it is not in time."""
        begin = time.monotonic()
        while time.monotonic() - begin < seconds:
            if self.value(expression):
                return time.monotonic() - begin
            time.sleep(0.02)
        return None

    def screenshot(self, file):
        """Writes the whole page to a file."""
        image = self.ask("Page.captureScreenshot", format="png", captureBeyondViewport=True)
        with open(file, "wb") as picture:
            picture.write(base64.b64decode(image["data"]))
