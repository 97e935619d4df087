"""Firefox without a window, by WebDriver BiDi over a socket."""

import base64
import itertools
import json
import pathlib
import re
import subprocess
import tempfile
import time

from . import Failed
from .websocket import Socket

PROGRAM = "firefox-esr"
# keys by the numbers that WebDriver gives them
KEYS = {"Tab": "\ue004", "ArrowLeft": "\ue012", "ArrowUp": "\ue013", "ArrowRight": "\ue014", "ArrowDown": "\ue015"}
PREFERENCES = """user_pref("browser.shell.checkDefaultBrowser", false);
user_pref("datareporting.policy.dataSubmissionEnabled", false);
user_pref("app.update.enabled", false);
user_pref("browser.download.folderList", 2);
"""


class Firefox:
    """A browser with one page."""

    name = PROGRAM

    def __init__(self):
        self.folder = tempfile.TemporaryDirectory()
        self.saved = pathlib.Path(self.folder.name) / "saved"
        self.saved.mkdir()
        preferences = PREFERENCES + f'user_pref("browser.download.dir", "{self.saved}");\n'
        (pathlib.Path(self.folder.name) / "user.js").write_text(preferences, encoding="utf-8")
        words = [PROGRAM, "--headless", "--no-remote", "--profile", self.folder.name, "--remote-debugging-port", "0"]
        self.said = pathlib.Path(self.folder.name) / "said"
        with open(self.said, "wb") as said:
            self.process = subprocess.Popen(words, stdout=said, stderr=said)
        self.numbers = itertools.count(1)
        self.socket = Socket("127.0.0.1", self.port(), "/session")
        self.call("session.new", capabilities={})
        self.context = self.call("browsingContext.getTree")["contexts"][0]["context"]

    def port(self):
        """The port that the browser says it listens on."""
        for _ in range(600):
            found = re.search(rb"WebDriver BiDi listening on ws://127\.0\.0\.1:(\d+)", self.said.read_bytes())
            if found:
                return int(found[1])
            time.sleep(0.1)
        raise Failed("the browser did not start")

    def call(self, method, seconds=300, **parameters):
        number = next(self.numbers)
        self.socket.send(json.dumps({"id": number, "method": method, "params": parameters}).encode())
        while True:
            message = json.loads(self.socket.receive(seconds))
            if message.get("id") == number:
                if message["type"] == "error":
                    raise Failed(f"{method}: {message['error']}: {message['message']}")
                return message["result"]

    def open(self, address):
        """Opens an address, and waits until it is loaded."""
        self.call("browsingContext.navigate", context=self.context, url=address, wait="complete")

    def ask(self, expression, seconds=300):
        """The value of an expression of the page, or what its promise comes to."""
        as_text = f"(async () => JSON.stringify(await ({expression})))()"
        how = {"awaitPromise": True, "target": {"context": self.context}, "userActivation": True}
        told = self.call("script.evaluate", seconds, expression=as_text, **how)
        if told["type"] == "exception":
            raise Failed(told["exceptionDetails"]["text"])
        return json.loads(told["result"]["value"]) if told["result"]["type"] == "string" else None

    def choose(self, selector, path):
        """Chooses a file in an input of files."""
        locator = {"type": "css", "value": selector}
        found = self.call("browsingContext.locateNodes", context=self.context, locator=locator)
        node = {"sharedId": found["nodes"][0]["sharedId"]}
        self.call("input.setFiles", context=self.context, element=node, files=[str(path)])

    def press(self, key):
        """Presses a key that has a name of its own."""
        actions = [{"type": event, "value": KEYS[key]} for event in ("keyDown", "keyUp")]
        keys = {"type": "key", "id": "keys", "actions": actions}
        self.call("input.performActions", context=self.context, actions=[keys])

    def look(self, width, height):
        """The size of the window."""
        self.call("browsingContext.setViewport", context=self.context, viewport={"width": width, "height": height})

    def picture(self, path):
        """A picture of what is seen."""
        path.write_bytes(base64.b64decode(self.call("browsingContext.captureScreenshot", context=self.context)["data"]))

    def close(self):
        self.socket.close()
        self.process.terminate()
        self.process.wait(20)
        self.folder.cleanup()
