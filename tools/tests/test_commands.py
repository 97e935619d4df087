"""What all tools have in common as commands: help, version, statuses, and no traceback whatever is given."""

import os
import pathlib
import subprocess
import tempfile
import unittest

from common import TOP, tool

VERSION = (TOP / "VERSION").read_text(encoding="utf-8").strip()
IMAGE = ["--image", "{}", "--nm", "{}", "--caps", "examples/patching/cpucap-defs.h", "examples/big-little.txt"]
# a use of each tool in which {} stands for a file
USES = {
    "dump2text": ["{}"],
    "explain": ["{}"],
    "cmdline-lint": ["--file", "{}"],
    "kernel2text": IMAGE,
    "patch-diff": ["{}", "{}", "{}"],
    "page": ["--page", "{}", "{}"],
    "fleet": ["--judged", "{}"],
}
GOOD = {
    "dump2text": ["examples/dumps/gdb.txt"],
    "explain": ["--all", "examples/big-little.txt"],
    "cmdline-lint": ["quiet arm64.nosve"],
    "kernel2text": ["--rules"],
    "patch-diff": ["--help"],
    "page": ["--help"],
    "fleet": ["examples/one-core.txt"],
}


def use(name, file):
    return [word.format(file) for word in USES[name]]


class Commands(unittest.TestCase):
    """Each tool."""

    def told(self, answer):
        self.assertNotIn(b"Traceback", answer.stderr)
        self.assertEqual(answer.stderr.count(b"\n"), 1, answer.stderr)
        return answer.stderr.decode()

    def test_help_and_version(self):
        for name in USES:
            for word in ("-h", "--help"):
                with self.subTest(tool=name, word=word):
                    answer = tool(name, word)
                    self.assertEqual((answer.returncode, answer.stderr), (0, b""))
                    self.assertIn(f"usage: {name}".encode(), answer.stdout)
                    self.assertIn(b"--version", answer.stdout)
            self.assertEqual(tool(name, "--version").stdout.decode(), f"armcaps-{name} {VERSION}\n")

    def test_wrong_words(self):
        for name in USES:
            for words in ([], ["--frobnicate"]):
                with self.subTest(tool=name, words=words):
                    answer = tool(name, *words)
                    self.assertEqual((answer.returncode, answer.stdout), (2, b""))
                    self.assertIn("--help says how it is used", self.told(answer))

    def test_a_file_that_is_not_there_and_one_that_is_a_folder(self):
        for name in USES:
            for file, why in (("/nowhere", "No such file"), ("/", "Is a directory")):
                with self.subTest(tool=name, file=file):
                    answer = tool(name, *use(name, file))
                    self.assertEqual((answer.returncode, answer.stdout), (2, b""))
                    self.assertIn(f"{name}: {file}: {why}", self.told(answer))

    def test_bytes_that_are_no_text(self):
        with tempfile.TemporaryDirectory() as folder:
            for data in (bytes(range(256)), b"\xff\xfe", b"armcaps 1\ncore 0\n\xff\xfe\nend\n", b""):
                file = pathlib.Path(folder) / "file"
                file.write_bytes(data)
                for name in USES:
                    with self.subTest(tool=name, data=data[:8]):
                        answer = tool(name, *use(name, file))
                        self.assertIn(answer.returncode, (0, 1))
                        self.assertNotIn(b"Traceback", answer.stderr)
        answer = tool("cmdline-lint", os.fsdecode(b"caf\xe9 arm64.nosve"))
        self.assertEqual(answer.returncode, 0)
        self.assertIn(b"id_aa64pfr0.sve 0", answer.stdout)
        answer = tool("dump2text", "--cmdline", os.fsdecode(b"caf\xe9"), "examples/dumps/gdb.txt")
        self.assertIn(b"\ncmdline caf\xe9\n", answer.stdout)

    def test_an_output_that_is_full_closed_or_gone(self):
        for name, words in GOOD.items():
            command = [str(TOP / "tools" / name), *words]
            with self.subTest(tool=name), open("/dev/full", "wb") as full:
                run = subprocess.run(command, stdout=full, stderr=subprocess.PIPE, cwd=TOP, check=False)
                self.assertEqual(run.returncode, 2)
                self.assertIn("No space left on device", self.told(run))
                quoted = " ".join(f"'{word}'" for word in command)
                run = subprocess.run(["sh", "-c", f"{quoted} >&-"], capture_output=True, cwd=TOP, check=False)
                self.assertEqual(run.returncode, 2)
                self.assertIn("standard output is closed", self.told(run))
                run = subprocess.run(["sh", "-c", f"{quoted} | true"], capture_output=True, cwd=TOP, check=False)
                self.assertEqual(run.stderr, b"")


if __name__ == "__main__":
    unittest.main()
