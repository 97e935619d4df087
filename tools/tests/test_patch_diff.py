"""What patch-diff tells of the small kernel in examples/patching. Run by tools/check, which names the program by
$ARMCAPS."""

import os
import pathlib
import shutil
import subprocess
import tempfile
import unittest

TOP = pathlib.Path(__file__).resolve().parent.parent.parent
PROGRAM = os.environ["ARMCAPS"]


def run(*command, given=None):
    return subprocess.run([str(part) for part in command], input=given, capture_output=True, check=False, cwd=TOP)


class Small(unittest.TestCase):
    def setUp(self):
        folder = tempfile.TemporaryDirectory()
        self.addCleanup(folder.cleanup)
        self.folder = pathlib.Path(folder.name)
        run(TOP / "examples/patching/make-kernel", self.folder)
        image, nm = self.folder / "kernel.img", self.folder / "kernel.nm"
        files = ["--image", image, "--nm", nm, "--caps", TOP / "examples/patching/cpucap-defs.h"]
        options = ["--running", "--conduit", "smc", "--on", "SPECTRE_V4", "--callback", "*=keep"]
        written = run(TOP / "tools/kernel2text", *files, *options, TOP / "examples/big-little.txt").stdout
        patched = run(PROGRAM, "patch", given=written + image.read_bytes()).stdout
        (self.folder / "text").write_bytes(written)
        (self.folder / "patched").write_bytes(patched)

    def answer(self, *options):
        files = [self.folder / name for name in ("text", "kernel.img", "patched")]
        return run(TOP / "tools/patch-diff", *options, *files)

    def rows(self, *options):
        return [line.split() for line in self.answer(*options).stdout.decode().splitlines()]

    def test_counts(self):
        rows = self.rows("--nm", self.folder / "kernel.nm")
        self.assertIn(["ALWAYS_SYSTEM", "(callback)", "3", "3", "6", "3"], rows)
        self.assertIn(["HAS_LSE_ATOMICS", "1", "0", "0", "0"], rows)
        self.assertIn(["WORKAROUND_845719", "1", "1", "2", "2"], rows)
        self.assertIn(["all", "7", "5", "9", "6"], rows)
        self.assertIn(["_text", "6"], rows)

    def of_vmlinux(self):
        """The same of the kernel's own file."""
        file, text = self.folder / "vmlinux", self.folder / "text"
        words = ["--vmlinux", file, "--caps", TOP / "examples/patching/cpucap-defs.h", "--running", "--conduit", "smc"]
        words += ["--on", "SPECTRE_V4", "--callback", "*=keep", TOP / "examples/big-little.txt"]
        text.write_bytes(run(TOP / "tools/kernel2text", *words).stdout)
        patched = run(PROGRAM, "elf", given=text.read_bytes() + file.read_bytes()).stdout
        (self.folder / "patched").write_bytes(patched)
        return [TOP / "tools/patch-diff", text, file, self.folder / "patched"]

    def test_a_vmlinux(self):
        expected = self.answer("--nm", self.folder / "kernel.nm").stdout
        words = self.of_vmlinux()
        done = run(*words)
        self.assertEqual((done.returncode, done.stdout), (0, expected), done.stderr)
        self.assertIn(b"site 0x120 _text+0x120, WORKAROUND_845719", run(*words, "--site", "_text+0x120").stdout)
        data = bytearray((self.folder / "patched").read_bytes())
        data[-1] ^= 1
        (self.folder / "patched").write_bytes(data)
        done = run(*words)
        self.assertEqual((done.returncode, done.stdout), (1, b""))
        self.assertIn(b"in no loaded section", done.stderr)

    def test_one_site(self):
        for place in ("0x124", "_text+0x120"):
            told = self.answer("--nm", self.folder / "kernel.nm", "--site", place).stdout.decode()
            self.assertIn("site 0x120 _text+0x120, WORKAROUND_845719, selected\nbefore:\n", told)
            self.assertIn("replacement at 0x2010:", told)
            words = [line.split()[0] for line in told.splitlines() if line.startswith("  ")]
            self.assertEqual(words, ["d503201f"] * 2 + ["d538d03d", "d518d03d"] * 2)
        if shutil.which("aarch64-linux-gnu-objdump"):
            self.assertIn("contextidr_el1", told)

    def test_a_word_outside_all_sites(self):
        patched = bytearray((self.folder / "patched").read_bytes())
        patched[0x400] ^= 1
        (self.folder / "patched").write_bytes(patched)
        done = self.answer()
        self.assertEqual(done.returncode, 1)
        self.assertIn(b"1 word differs in no site of a selected entry, the first at 0x400", done.stderr)

    def test_refusals(self):
        for options, word in [
            (("--site", "0x400"), b"no entry of the table has a site at 0x400"),
            (("--site", "nothing"), b"neither an offset"),
        ]:
            done = self.answer(*options)
            self.assertEqual((done.returncode, done.stdout), (1, b""))
            self.assertIn(word, done.stderr)
        (self.folder / "patched").write_bytes(b"")
        self.assertIn(b"they are not of one another", self.answer().stderr)


if __name__ == "__main__":
    unittest.main()
