"""A browser without a window that a test drives: Chromium, by its DevTools protocol over two pipes."""

import base64
import json
import os
import shutil
import subprocess
import tempfile
from select import select
from time import monotonic, sleep

#: How long a call, or what is waited for, may take, in seconds.
MOST_WAIT = 60


def find_chromium():
    """The path of a Chromium, or none."""
    names = [os.environ.get("CHROMIUM"), "chromium", "chromium-browser", "google-chrome", "chrome"]
    return next((path for path in (shutil.which(name) for name in names if name) if path), None)


class Browser:
    """A browser with one page. It ends with its `with`."""

    def __init__(self, program):
        self._folder = tempfile.mkdtemp(prefix="polydb-page-")
        read_here, write_there = os.pipe()
        read_there, self._write = os.pipe()
        words = ["--headless=new", "--remote-debugging-pipe", "--no-first-run", "--disable-gpu", f"--user-data-dir={self._folder}", "about:blank"]
        if os.geteuid() == 0:
            words.insert(0, "--no-sandbox")
        # The browser reads from its file 3 and writes to its file 4.
        script = f'exec "$@" 3<&{read_there} 4>&{write_there}'
        self._process = subprocess.Popen(
            ["bash", "-c", script, "bash", program, *words],
            pass_fds=(read_there, write_there),
            stdin=subprocess.DEVNULL,
            stdout=subprocess.DEVNULL,
            stderr=subprocess.DEVNULL,
        )
        os.close(read_there)
        os.close(write_there)
        self._read = read_here
        self._heard = b""
        self._number = 0
        self._session = None
        self.problems = []
        target = self.call("Target.createTarget", {"url": "about:blank"})["targetId"]
        self._session = self.call("Target.attachToTarget", {"targetId": target, "flatten": True})["sessionId"]
        for domain in ("Page", "Runtime", "Log"):
            self.call(f"{domain}.enable")

    def __enter__(self):
        return self

    def __exit__(self, *_):
        self._process.terminate()
        self._process.wait(MOST_WAIT)
        os.close(self._write)
        os.close(self._read)
        shutil.rmtree(self._folder, ignore_errors=True)

    def call(self, method, words=None):
        """What a call of the protocol gives."""
        self._number += 1
        call = {"id": self._number, "method": method, "params": words or {}}
        if self._session:
            call["sessionId"] = self._session
        os.write(self._write, json.dumps(call).encode() + b"\0")
        until = monotonic() + MOST_WAIT
        while True:
            said = self._hear(until)
            if said.get("id") == self._number:
                if "error" in said:
                    raise RuntimeError(f"{method}: {said['error']['message']}")
                return said["result"]
            self._note(said)

    # What the page complains of is kept: errors of scripts, and what its policy has blocked.
    def _note(self, said):
        if said.get("method") == "Runtime.exceptionThrown":
            self.problems.append(said["params"]["exceptionDetails"].get("exception", {}).get("description", "exception"))
        if said.get("method") == "Log.entryAdded" and said["params"]["entry"]["level"] == "error":
            self.problems.append(said["params"]["entry"]["text"])

    def _hear(self, until):
        while b"\0" not in self._heard:
            if not select([self._read], [], [], max(until - monotonic(), 0))[0]:
                raise TimeoutError("the browser doesn't answer")
            piece = os.read(self._read, 1 << 16)
            if not piece:
                raise RuntimeError("the browser has ended")
            self._heard += piece
        said, self._heard = self._heard.split(b"\0", 1)
        return json.loads(said)

    def go(self, address):
        """Opens an address."""
        self.call("Page.navigate", {"url": "about:blank"})
        self.call("Page.navigate", {"url": address})

    def value(self, script):
        """The value of an expression of JavaScript in the page."""
        said = self.call("Runtime.evaluate", {"expression": script, "returnByValue": True, "awaitPromise": True})
        if "exceptionDetails" in said:
            raise RuntimeError(f"{script}: {said['exceptionDetails'].get('exception', {}).get('description')}")
        return said["result"].get("value")

    def wait(self, script):
        """Waits until an expression is true."""
        until = monotonic() + MOST_WAIT
        while not self.value(script):
            if monotonic() > until:
                raise TimeoutError(f"not true in time: {script}")
            sleep(0.02)

    def size(self, width, height, dark=False):
        """Makes the window so large, and chooses the colour scheme."""
        self.call("Emulation.setDeviceMetricsOverride", {"width": width, "height": height, "deviceScaleFactor": 1, "mobile": width < 600})
        scheme = {"name": "prefers-color-scheme", "value": "dark" if dark else "light"}
        self.call("Emulation.setEmulatedMedia", {"features": [scheme]})

    def press(self, key, code=None):
        """Presses a key: `Tab`, `Enter`, ` `, `ArrowUp` or `ArrowDown`."""
        words = {"key": key, "code": code or key, "windowsVirtualKeyCode": {"Tab": 9, "Enter": 13, " ": 32, "ArrowUp": 38, "ArrowDown": 40}[key]}
        text = {"Enter": "\r", " ": " "}.get(key)
        self.call("Input.dispatchKeyEvent", {"type": "keyDown", **words, **({"text": text} if text else {})})
        self.call("Input.dispatchKeyEvent", {"type": "keyUp", **words})

    def picture(self, path):
        """Writes a picture of the whole page."""
        said = self.call("Page.captureScreenshot", {"captureBeyondViewport": True})
        with open(path, "wb") as file:
            file.write(base64.b64decode(said["data"]))

    def tree(self):
        """What a screen reader is told: the role and the name of each part."""
        nodes = self.call("Accessibility.getFullAXTree")["nodes"]
        told = [node for node in nodes if not node.get("ignored")]
        return [(node["role"]["value"], node.get("name", {}).get("value", "")) for node in told]
