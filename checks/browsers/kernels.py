"""What is tried with images of kernels on the page in a browser: each ends with a line, or with what is not so."""

import hashlib
import pathlib
import re
import subprocess
import tempfile
import time

from . import drawn, images
from .documents import TOP
from .page import Page


class Kernels:
    """Trials of images on the page of other trials, beside the program."""

    def __init__(self, trials):
        self.page, self.run, self.path = trials.page, trials.run, trials.path

    def patch(self, megabytes, entries):
        """A large image, opened as a file and patched by its button."""
        given, image = images.document(megabytes * 1000000 & ~15, entries, 1)
        program = self.run("patch", given + image)
        drawn.same("status", program.returncode, 0)
        with tempfile.TemporaryDirectory() as folder:
            path = pathlib.Path(folder) / "kernel.txt"
            path.write_bytes(given + image)
            self.page.choose(path)
            self.page.ask("void (document.getElementById('command').value = 'patch', showCommand())")
            begin = time.monotonic()
            self.page.ask("void document.getElementById('patch').click()")
            self.page.wait("document.body.dataset.patched === String(state.turn)")
            seconds = time.monotonic() - begin
        drawn.same("patched image", self.patched(self.page), hashlib.sha256(program.stdout).digest())
        self.counted(given, image, program.stdout)
        return f"an image of {megabytes} MB patched in {seconds:.2f} s, with the program's bytes"

    def counted(self, given, image, patched):
        """The page's count of changed words, beside that of the images themselves."""
        rows = self.page.ask(
            "[...document.querySelectorAll('#patched tbody tr')].map((row) => "
            "[row.dataset.number, ...[...row.querySelectorAll('td')].map((cell) => Number(cell.textContent))])"
        )
        changed = sum(image[at : at + 4] != patched[at : at + 4] for at in range(0, len(image), 4))
        entries = int(re.search(rb"^table \d+ (\d+)$", given, re.MULTILINE)[1])
        drawn.same("entries and changed words", [rows[-1][1], rows[-1][4]], [entries, changed])

    def other_commands(self):
        """An image with jump labels, and a vmlinux, each opened as a file and patched by its own command."""
        given, image = images.document(1 << 20, 300, 3)
        place, count = len(image) // 8 * 7, 200
        labelled = images.with_jump_labels(image, place, count, 4)
        table, entries = map(int, re.search(rb"^table (\d+) (\d+)$", given, re.MULTILINE).groups())
        kernel = images.vmlinux(image, table, entries)
        self.commanded(f"jump {place:#x} {count}", given + labelled)
        self.commanded("elf", images.text_for(given, len(kernel)) + kernel)
        return "an image with jump labels and a vmlinux, by jump and elf"

    def commanded(self, words, data):
        """A command of its own on a text with its image: the answer, beside the program's."""
        program = self.run(words, data)
        drawn.same(f"status of {words}", (program.returncode, program.stderr), (0, b""))
        with tempfile.TemporaryDirectory() as folder:
            path = pathlib.Path(folder) / "kernel.txt"
            path.write_bytes(data)
            self.page.choose(path)
        command, _, numbers = words.partition(" ")
        chosen = self.page.ask("document.getElementById('command').value")
        drawn.same("command that the page chose", chosen, "elf" if command == "elf" else "patch")
        choice = f"document.getElementById('command').value = '{command}'"
        self.page.ask(f"void ({choice}, document.getElementById('labels').value = '{numbers}')")
        drawn.same(words, self.patched(self.page), hashlib.sha256(program.stdout).digest())

    def audits(self):
        """A second image: the patched one, one with another byte, one that is too short, and none."""
        given, image = images.document(1 << 16, 50, 5)
        patched = self.run("patch", given + image).stdout
        place = 4096
        changed = patched[:place] + bytes([patched[place] ^ 1]) + patched[place + 1 :]
        cases = [(patched, 0, "Yes: "), (changed, 12, f"No: byte {place} ")]
        cases += [(patched[:-1], 3, "wants as many bytes"), (b"", 3, "Open the second image")]
        for second, status, wanted in cases:
            drawn.same("status of audit", self.run("audit", given + image + second).returncode, status)
            with tempfile.TemporaryDirectory() as folder:
                kernel, other = pathlib.Path(folder) / "kernel.txt", pathlib.Path(folder) / "second.img"
                kernel.write_bytes(given + image)
                other.write_bytes(second)
                self.page.choose(kernel)
                self.page.ask("void (document.getElementById('command').value = 'audit', showCommand())")
                if second:
                    self.page.browser.choose("#second", other)
                    self.page.wait("state.second !== null")
            self.page.ask("void document.getElementById('patch').click()")
            self.page.wait("document.body.dataset.patched === String(state.turn)")
            told = self.page.ask("document.getElementById('patch-answer').textContent")
            if wanted not in told:
                raise drawn.Differs(f"audit: {told!r} does not say {wanted!r}")
        return "an audit of the patched image, of one with another byte, of a shorter one, and of none"

    def board(self):
        """A page that tools/page wrote, with a text and its image in it."""
        given, image = images.document(1 << 20, 500, 2)
        program = self.run("patch", given + image)
        with tempfile.TemporaryDirectory() as folder:
            board, page = pathlib.Path(folder) / "board.txt", pathlib.Path(folder) / "board.html"
            board.write_bytes(given + image)
            tool = [TOP / "tools/page", "--page", self.path, board]
            page.write_bytes(subprocess.run(tool, capture_output=True, check=True).stdout)
            opened = Page(self.page.browser, page)
            drawn.same("title", opened.ask("document.title"), "board.txt: armcaps")
            drawn.same("patched image", self.patched(opened), hashlib.sha256(program.stdout).digest())
        Page(self.page.browser, self.path)
        return "a page with a text and an image of 1 MiB in it, by tools/page, patched"

    def patched(self, page):
        """The sum of the image that the page's button patches."""
        page.ask("void document.getElementById('patch').click()")
        page.wait("document.body.dataset.patched === String(state.turn)")
        digest = "crypto.subtle.digest('SHA-256', state.patched).then((sum) => [...new Uint8Array(sum)])"
        return bytes(page.ask(digest))
