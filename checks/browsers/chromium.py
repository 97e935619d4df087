"""Chromium without a window, by its debugging protocol over a pipe."""

import base64
import itertools
import json
import os
import pathlib
import select
import subprocess
import tempfile
import time

from . import Failed

PROGRAM = "chromium"
# a browser that root starts has no sandbox
FLAGS = ["--headless=new", "--no-sandbox", "--disable-gpu", "--disable-dev-shm-usage", "--no-first-run"]


class Chromium:
    """A browser with one page."""

    name = PROGRAM

    def __init__(self):
        self.folder = tempfile.TemporaryDirectory()
        (there, self.to), (self.came, here) = os.pipe(), os.pipe()
        words = [PROGRAM, *FLAGS, "--remote-debugging-pipe", f"--user-data-dir={self.folder.name}", "about:blank"]
        # the browser reads calls from file 3, and answers to file 4
        joined = ["bash", "-c", f'exec "$@" 3<&{there} 4>&{here}', "browser", *words]
        quiet = {"stdout": subprocess.DEVNULL, "stderr": subprocess.DEVNULL}
        self.process = subprocess.Popen(joined, pass_fds=(there, here), **quiet)
        os.close(there)
        os.close(here)
        self.numbers, self.rest, self.session = itertools.count(1), b"", None
        target = self.call("Target.createTarget", url="about:blank")["targetId"]
        self.session = self.call("Target.attachToTarget", targetId=target, flatten=True)["sessionId"]
        for domain in ("Page", "Runtime", "DOM"):
            self.call(f"{domain}.enable")
        self.saved = pathlib.Path(self.folder.name) / "saved"
        self.saved.mkdir()
        self.call("Browser.setDownloadBehavior", behavior="allow", downloadPath=str(self.saved))

    def message(self, seconds):
        """The next message of the browser."""
        end = time.monotonic() + seconds
        while b"\0" not in self.rest:
            left = end - time.monotonic()
            if left <= 0 or not select.select([self.came], [], [], left)[0]:
                raise Failed(f"no answer within {seconds} seconds")
            got = os.read(self.came, 1 << 20)
            if not got:
                raise Failed("the browser is gone")
            self.rest += got
        message, _, self.rest = self.rest.partition(b"\0")
        return json.loads(message)

    def call(self, method, seconds=300, **parameters):
        number = next(self.numbers)
        call = {"id": number, "method": method, "params": parameters}
        if self.session:
            call["sessionId"] = self.session
        data = memoryview(json.dumps(call).encode() + b"\0")
        while data:
            data = data[os.write(self.to, data) :]
        while True:
            message = self.message(seconds)
            if message.get("id") == number:
                if "error" in message:
                    raise Failed(f"{method}: {message['error']['message']}")
                return message["result"]

    def open(self, address):
        """Opens an address, and waits until it is loaded."""
        self.call("Page.navigate", url=address)
        while self.ask("document.readyState") != "complete":
            time.sleep(0.02)

    def ask(self, expression, seconds=300):
        """The value of an expression of the page, or what its promise comes to."""
        how = {"awaitPromise": True, "returnByValue": True, "userGesture": True}
        told = self.call("Runtime.evaluate", seconds, expression=expression, **how)
        if "exceptionDetails" in told:
            raise Failed(told["exceptionDetails"].get("exception", {}).get("description", str(told)))
        return told["result"].get("value")

    def choose(self, selector, path):
        """Chooses a file in an input of files."""
        root = self.call("DOM.getDocument")["root"]["nodeId"]
        node = self.call("DOM.querySelector", nodeId=root, selector=selector)["nodeId"]
        self.call("DOM.setFileInputFiles", nodeId=node, files=[str(path)])

    def press(self, key):
        """Presses a key that has a name of its own."""
        for event in ("rawKeyDown", "keyUp"):
            self.call("Input.dispatchKeyEvent", type=event, key=key, code=key, windowsVirtualKeyCode=KEYS[key])

    def look(self, width, height, dark=False, media="", scale=1):
        """The size of the window, and what the user prefers."""
        size = {"width": width, "height": height, "deviceScaleFactor": scale, "mobile": width < 600}
        self.call("Emulation.setDeviceMetricsOverride", **size)
        features = [{"name": "prefers-color-scheme", "value": "dark" if dark else "light"}]
        self.call("Emulation.setEmulatedMedia", media=media, features=features)

    def picture(self, path):
        """A picture of what is seen."""
        path.write_bytes(base64.b64decode(self.call("Page.captureScreenshot", format="png")["data"]))

    def close(self):
        self.process.terminate()
        self.process.wait(20)
        os.close(self.to)
        os.close(self.came)
        self.folder.cleanup()


KEYS = {"Tab": 9, "ArrowLeft": 37, "ArrowUp": 38, "ArrowRight": 39, "ArrowDown": 40, "Home": 36, "End": 35}
