"""The page in a browser: documents are put into it, and what it answers and draws is taken out."""

import base64
import json
import time

from . import Failed, drawn


class Page:
    """An open page."""

    def __init__(self, browser, path):
        self.browser = browser
        begin = time.monotonic()
        browser.open(f"file://{path}")
        self.wait("Number(document.body.dataset.shown ?? 0) > 0")
        self.seconds = time.monotonic() - begin
        self.ask("document.getElementById('quiet').click()")

    def ask(self, expression, seconds=300):
        return self.browser.ask(expression, seconds)

    def wait(self, condition, seconds=120):
        """Waits for a condition, and gives the seconds that it took."""
        begin = time.monotonic()
        while not self.ask(f"Boolean({condition})"):
            if time.monotonic() - begin > seconds:
                raise Failed(f"not within {seconds} seconds: {condition}")
            time.sleep(0.02)
        return time.monotonic() - begin

    def act(self, action, seconds=120):
        """Does something that makes the page run the program, and waits until it is drawn."""
        turn = self.ask("state.turn")
        self.ask(f"void ({action})")
        return self.wait(f"Number(document.body.dataset.shown) > {turn}", seconds)

    def put(self, data):
        """Puts a document without an image into the editor."""
        return self.act(f"(setText(asBytes(atob('{base64.b64encode(data).decode()}'))), show())")

    def run(self, words, data):
        """What the page's own module answers: status, output, and the line of its error stream."""
        return self.answer(f"engine.run({json.dumps(words)}, [asBytes(atob('{base64.b64encode(data).decode()}'))])")

    def answer(self, running):
        as_text = "({ status, err, out }) => [status, btoa(asCharacters(out)), err]"
        status, out, err = self.ask(f"({running}).then({as_text})")
        return status, base64.b64decode(out), err

    def drawn(self):
        return self.ask(drawn.READ)

    def choose(self, path, done=None, seconds=300):
        """Opens a file as a user does; `done` says when the page has dealt with it, if it is not shown."""
        turn = self.ask("state.turn")
        self.browser.choose("#file", path)
        return self.wait(done or f"Number(document.body.dataset.shown) > {turn}", seconds)

    def note(self):
        return self.ask("document.getElementById('file-note').textContent")

    def summary(self):
        return self.ask("document.getElementById('summary').textContent")
