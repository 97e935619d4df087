"""What make install copies: under a folder with a space, under a umask that hides files, and gone after uninstall."""

import pathlib
import subprocess
import tempfile
import unittest

from common import PROGRAM, TOP

TOOLS = ["dump2text", "explain", "cmdline-lint", "kernel2text", "patch-diff", "page", "fleet"]


class Installed(unittest.TestCase):
    """An installed copy."""

    def make(self, goal):
        words = f'umask 077 && make -s {goal} PROGRAM="{PROGRAM}" DESTDIR="{self.folder}" PREFIX=/usr'
        made = subprocess.run(["sh", "-c", words], capture_output=True, cwd=TOP, check=False)
        self.assertEqual(made.returncode, 0, made.stderr.decode())

    def setUp(self):
        folder = tempfile.TemporaryDirectory()
        self.addCleanup(folder.cleanup)
        self.folder = pathlib.Path(folder.name) / "a folder"
        self.make("install")

    def ran(self, *words):
        return subprocess.run([str(word) for word in words], capture_output=True, check=False)

    def completed(self, *words):
        """What bash completes."""
        line = f"COMP_WORDS=({' '.join(words)}) COMP_CWORD={len(words) - 1}"
        script = f'. "$0"; {line}; _armcaps; echo "${{COMPREPLY[@]}}"'
        page = self.folder / "usr/share/bash-completion/completions" / words[0]
        return self.ran("bash", "-c", script, page).stdout.decode().split()

    def test_all_can_read_it(self):
        for path in self.folder.rglob("*"):
            if not path.is_symlink():
                mode = path.stat().st_mode & 0o777
                self.assertIn(mode, (0o755,) if path.is_dir() else (0o644, 0o755), path)

    def test_the_tools_run_and_their_pages_are_whole(self):
        for tool in TOOLS:
            with self.subTest(tool=tool):
                answer = self.ran(self.folder / f"usr/bin/armcaps-{tool}", "--version")
                self.assertEqual(answer.stdout.decode().split()[0], f"armcaps-{tool}", answer.stderr)
                self.assertNotEqual(answer.stdout.decode().split()[1], "unknown")
                page = (self.folder / f"usr/share/man/man1/armcaps-{tool}.1").read_text(encoding="utf-8")
                self.assertNotRegex(page, "@[A-Z]+@")
        dump = self.folder / "usr/share/doc/armcaps/examples/dumps/gdb.txt"
        self.assertEqual(self.ran(self.folder / "usr/bin/armcaps-dump2text", dump).returncode, 0)

    def test_completion(self):
        self.assertEqual(self.completed("armcaps-dump2text", "--us"), ["--user-space"])
        self.assertEqual(self.completed("armcaps-cmdline-lint", "--linux", "6.1"), ["6.1", "6.12"])
        self.assertEqual(self.completed("armcaps", "rep"), ["report"])

    def test_uninstall_leaves_no_file(self):
        self.make("uninstall")
        self.assertEqual([path for path in self.folder.rglob("*") if not path.is_dir()], [])


if __name__ == "__main__":
    unittest.main()
