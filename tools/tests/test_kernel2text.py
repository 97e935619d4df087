"""The lines on alternatives that kernel2text adds, for the small kernel in examples/patching. Run by tools/check, which
names the program by $ARMCAPS."""

import os
import pathlib
import re
import struct
import subprocess
import sys
import tempfile
import unittest

TOP = pathlib.Path(__file__).resolve().parent.parent.parent
sys.path.insert(0, str(TOP / "tools"))
from armcaps_tools import kernel, linux, profile  # noqa: E402

PROGRAM = os.environ["ARMCAPS"]
CAPS = TOP / "examples/patching/cpucap-defs.h"
TEXT = "armcaps 1\ncore 0\nboot 0\nfinalise\nend\n"
KEEP = ("--callback", "my_callback=keep")


def run(*command, given=None):
    return subprocess.run([str(part) for part in command], input=given, capture_output=True, check=False, cwd=TOP)


def vmlinux(image, symbols, table, sizes=None):
    """An ELF64 file with a section for the image before its table, one for the table, and one of no bytes behind."""
    base, begin = symbols["_text"], table - symbols["_text"]
    names = b"\0.text\0.altinstructions\0.bss\0.symtab\0.strtab\0.shstrtab\0"
    strings, entries = b"\0", b"\0" * 24
    for name, address in symbols.items():
        entries += struct.pack("<IBBHQQ", len(strings), 0, 0, 1, address, (sizes or {}).get(name, 0))
        strings += name.encode() + b"\0"
    parts = [image, entries, strings, names]
    places = [64 + sum(len(part) for part in parts[:index]) for index in range(5)]
    row = lambda name, kind, flags, address, place, size, link=0: struct.pack(  # noqa: E731
        "<IIQQQQIIQQ", names.index(name), kind, flags, address, place, size, link, 0, 1, 0
    )
    sections = [
        bytes(64),
        row(b".text", 1, 6, base, places[0], begin),
        row(b".altinstructions", 1, 2, base + begin, places[0] + begin, len(image) - begin),
        row(b".bss", 8, 3, base + len(image), places[1], 0x1000),
        row(b".symtab", 2, 0, 0, places[1], len(entries), 5),
        row(b".strtab", 3, 0, 0, places[2], len(strings)),
        row(b".shstrtab", 3, 0, 0, places[3], len(names)),
    ]
    ident = b"\x7fELF\2\1\1" + bytes(9)
    head = struct.pack("<16sHHIQQQIHHHHHH", ident, 2, 183, 1, 0, 0, places[4], 0, 64, 0, 0, 64, len(sections), 6)
    return head + b"".join(parts) + b"".join(sections)


class Small(unittest.TestCase):
    """The small kernel, in a folder of its own."""

    def setUp(self):
        folder = tempfile.TemporaryDirectory()
        self.addCleanup(folder.cleanup)
        self.folder = pathlib.Path(folder.name)
        run(TOP / "examples/patching/make-kernel", self.folder)
        self.image = (self.folder / "kernel.img").read_bytes()

    def answer(self, *options, given=TEXT, change=lambda text: text, caps=CAPS):
        """The status, the lines and what was told of the small kernel, whose symbols are changed."""
        symbols = self.folder / "kernel.nm"
        symbols.write_text(change(symbols.read_text()))
        files = ["--image", self.folder / "kernel.img", "--nm", symbols, "--caps", caps]
        done = run(TOP / "tools/kernel2text", *files, *options, "-", given=given.encode())
        if done.returncode == 0 and "--padded" not in options:
            checked = run(PROGRAM, "patch", given=done.stdout + self.image)
            self.assertEqual((checked.returncode, checked.stderr), (0, b""))
        return done.returncode, done.stdout.decode().splitlines(), done.stderr.decode()


class Lines(Small):
    def test_an_image_that_boots(self):
        status, lines, told = self.answer("--on", "SPECTRE_V4", "--conduit", "hvc")
        self.assertEqual(status, 0)
        self.assertEqual(lines[4:6], ["given 1 ARM64_ALWAYS_SYSTEM off", "number 35 HAS_LSE_ATOMICS"])
        self.assertEqual(lines[6:8], ["given 43 HAS_VIRT_HOST_EXTN off", "given 62 SPECTRE_V4 on"])
        self.assertEqual(lines[-4:], ["conduit hvc", "callback 0x840 conduit", "table 0x3000 7", "image 16384"])
        self.assertIn("off, for an image that boots and patches itself again", told)
        self.assertIn("ALWAYS_SYSTEM, HAS_VIRT_HOST_EXTN\n", told)

    def test_a_kernel_that_runs(self):
        status, lines, told = self.answer("--running", *KEEP)
        self.assertEqual((status, lines[4]), (0, "number 1 ALWAYS_SYSTEM"))
        self.assertEqual(lines[-3:], ["callback 0x8c0 keep", "table 0x3000 7", "image 16384"])
        self.assertIn("stated as off, as registers do not decide them (--on): HAS_VIRT_HOST_EXTN, SPECTRE_V4\n", told)

    def test_on_and_off_win(self):
        _, lines, told = self.answer("--on", "ARM64_ALWAYS_SYSTEM", "--off", "HAS_LSE_ATOMICS,WORKAROUND_845719", *KEEP)
        self.assertEqual(lines[4], "given 1 ARM64_ALWAYS_SYSTEM on")
        self.assertEqual(lines[5], "given 35 ARM64_HAS_LSE_ATOMICS off")
        self.assertEqual(lines[8], "given 83 ARM64_WORKAROUND_845719 off")
        self.assertIn("an image with it may not boot", told)

    def test_callbacks(self):
        self.assertIn("callback 0x8c0 nops", self.answer("--running", "--callback", "my_*=nops")[1])
        lines = self.answer("--running", "--callback", "*=keep")[1]
        self.assertIn("callback 0x800 nops", lines)
        lines = self.answer("--running", *KEEP, "--callback", "alt_cb_patch_nops=keep")[1]
        self.assertIn("callback 0x800 keep", lines)

    def test_names(self):
        header = CAPS.read_text()
        for told in [
            header.replace("ARM64_", ""),
            re.sub(r"#define\s+", "#  define\t", header),
            "\n".join(dict.fromkeys(["# a list", ""])) + "\n" + "\n".join(self.listed(header)) + "\n",
        ]:
            caps = self.folder / "caps"
            caps.write_text(told)
            self.assertEqual(self.answer("--running", *KEEP, caps=caps)[:2], self.answer("--running", *KEEP)[:2])

    def listed(self, header):
        """The names of a header as the source lists them, with others where it has no number."""
        names = kernel.numbers(header.encode())
        return [names.get(number, f"OTHER_{number}") for number in range(max(names) + 1)]

    def test_refusals(self):
        for options, named, word in [
            (("--running",), {}, "no kind for the callbacks my_callback"),
            (("--running", *KEEP), {"change": lambda text: text.replace("alt_cb_patch_nops", "odd")}, "callbacks odd"),
            (("--on", "HAS_NOTHING"), {}, "the table does not use HAS_NOTHING"),
            (("--on", "SPECTRE_V4", "--off", "SPECTRE_V4"), {}, "both name SPECTRE_V4"),
            (("--callback", "my_callback"), {}, "it is NAME=KIND"),
            (("--callback", "my_callback=nop"), {}, "it is NAME=KIND"),
            ((), {"given": "armcaps 1\n"}, "does not end with `end`"),
            ((), {"given": "armcaps 1\ncore 0\nend\n"}, "refuses the text"),
            ((), {"change": lambda text: text.replace("__alt_instructions_end", "other")}, "have no __alt"),
            ((), {"change": lambda text: text.replace("3054 D", "3058 D")}, "is not one of this image"),
            ((), {"change": lambda text: text.replace(" _text", " _start")}, "have no _text"),
            ((), {"caps": TOP / "README.md"}, "neither a header"),
        ]:
            with self.subTest(word=word):
                run(TOP / "examples/patching/make-kernel", self.folder)
                status, lines, told = self.answer(*options, **named)
                self.assertEqual((status, lines), (1, []))
                self.assertIn(word, told)

    def test_models_without_errata_are_told(self):
        given = (TOP / "examples/qemu-neoverse-n1.txt").read_text()
        self.assertIn("no errata here of the model 0x410fd0c0", self.answer("--on", "SPECTRE_V4", given=given)[2])
        given = (TOP / "examples/qemu-cortex-a53.txt").read_text()
        self.assertNotIn("no errata here", self.answer("--on", "SPECTRE_V4", given=given)[2])


class Files(Small):
    def test_padded(self):
        grown = lambda text: text + "ffff800080006000 B _end\n"  # noqa: E731
        status, lines, _ = self.answer("--padded", self.folder / "padded", change=grown)
        self.assertEqual((status, lines[-1]), (0, "image 24576"))
        self.assertEqual((self.folder / "padded").read_bytes(), self.image + bytes(0x2000))

    def test_jump_table(self):
        jumps = "ffff800080003100 D __start___jump_table\nffff800080003120 D __stop___jump_table\n"
        self.assertIn("`jump 0x3100 2`", self.answer(change=lambda text: text + jumps)[2])

    def test_keys_beyond_the_image(self):
        run(TOP / "examples/patching/make-kernel", "--labels", self.folder)
        words = self.answer("--padded", self.folder / "padded")[2]
        self.assertIn("`jump 0x3100 3`\n", words)
        self.assertIn("keys lie beyond the image", self.answer()[2])

    def test_vmlinux(self):
        symbols = kernel.symbols((self.folder / "kernel.nm").read_bytes())
        file = self.folder / "vmlinux"
        file.write_bytes(vmlinux(self.image, symbols, symbols["__alt_instructions"]))
        options = ("--running", *KEEP, "-")
        done = run(TOP / "tools/kernel2text", "--vmlinux", file, "--caps", CAPS, *options, given=TEXT.encode())
        expected = [line for line in self.answer("--running", *KEEP)[1] if not line.startswith("table ")]
        self.assertEqual(done.stdout.decode().splitlines()[:-1], expected[:-1], done.stderr.decode())
        self.assertEqual(done.stdout.decode().splitlines()[-1], f"image {file.stat().st_size}")
        self.assertNotIn(b"jump", done.stderr)

    def test_numbers_beside_vmlinux(self):
        symbols = kernel.symbols((self.folder / "kernel.nm").read_bytes())
        file = self.folder / "vmlinux"
        file.write_bytes(vmlinux(self.image, symbols, symbols["__alt_instructions"]))
        words = ["--vmlinux", file, "--running", *KEEP, "-"]
        self.assertEqual(run(TOP / "tools/kernel2text", *words, given=TEXT.encode()).returncode, 2)
        generated = self.folder / "arch/arm64/include/generated/asm"
        generated.mkdir(parents=True)
        (generated / "cpucap-defs.h").write_bytes(CAPS.read_bytes())
        found = run(TOP / "tools/kernel2text", *words, given=TEXT.encode())
        told = run(TOP / "tools/kernel2text", *words, "--caps", CAPS, given=TEXT.encode())
        self.assertEqual((found.returncode, found.stdout), (0, told.stdout))

    def test_numbers_that_the_kernel_describes_otherwise(self):
        symbols = kernel.symbols((self.folder / "kernel.nm").read_bytes())
        symbols["arm64_features"] = symbols["_text"] + 0x3800
        for number, status in [(35, 0), (83, 1)]:
            image = bytearray(self.image)
            image[0x3800:0x380A] = struct.pack("<QH", symbols["_text"] + 0x3900, number)
            image[0x3900:0x3918] = b"LSE atomic instructions\0"
            file = self.folder / "vmlinux"
            file.write_bytes(vmlinux(bytes(image), symbols, symbols["__alt_instructions"], {"arm64_features": 24}))
            words = ["--vmlinux", file, "--caps", CAPS, "--running", *KEEP, "-"]
            done = run(TOP / "tools/kernel2text", *words, given=TEXT.encode())
            with self.subTest(number=number):
                self.assertEqual(done.returncode, status, done.stderr)
                told = b"has HAS_LSE_ATOMICS as 35, and this kernel 83, 'LSE atomic instructions'"
                self.assertEqual(told in done.stderr, bool(status))

    def test_a_file_above_the_limit(self):
        with open(self.folder / "kernel.img", "r+b") as file:
            file.truncate((1 << 27) + 4)
        files = ["--image", self.folder / "kernel.img", "--nm", self.folder / "kernel.nm", "--caps", CAPS]
        done = run(TOP / "tools/kernel2text", *files, "-", given=TEXT.encode())
        self.assertEqual((done.returncode, done.stdout), (1, b""))
        self.assertIn(b"the text's format takes 134217728", done.stderr)
        done = run(TOP / "tools/kernel2text", *files, "-", given=TEXT.replace("armcaps 1", "armcaps 2").encode())
        self.assertEqual(done.returncode, 0)

    def test_no_vmlinux(self):
        symbols = kernel.symbols((self.folder / "kernel.nm").read_bytes())
        whole = vmlinux(self.image, symbols, symbols["__alt_instructions"])
        unnamed = vmlinux(self.image, {**symbols, "_start": symbols["_text"]}, symbols["__alt_instructions"])
        for data, word in [
            (CAPS.read_bytes(), b"no ELF64 file"),
            (whole[:18] + b"\x3e" + whole[19:], b"another machine"),
            (whole[:-100], b"no table of sections within it: is it cut?"),
            (unnamed.replace(b"\0_text\0", b"\0_head\0"), b"no symbol _text"),
        ]:
            file = self.folder / "vmlinux"
            file.write_bytes(data)
            with self.subTest(word=word):
                done = run(TOP / "tools/kernel2text", "--vmlinux", file, "--caps", CAPS, "-", given=TEXT.encode())
                self.assertEqual((done.returncode, done.stdout), (1, b""))
                self.assertIn(word, done.stderr)

    def test_no_image(self):
        for begin, word in [(b"\x7fELF", "is an ELF file"), (b"\x1f\x8b", "(gzip)"), (b"MZ\0\0zimg", "unpacks itself")]:
            (self.folder / "kernel.img").write_bytes(begin + self.image[len(begin) :])
            with self.subTest(word=word):
                status, lines, told = self.answer()
                self.assertEqual((status, lines), (1, []))
                self.assertIn(word, told)

    def test_the_numbers_of_another_kernel(self):
        """The kernel has a pointer for each number: 97 in the header, whatever the alignment of what follows them."""
        for size, status in [(96, 1), (97, 0), (104, 0), (105, 1)]:
            begin = 0xFFFF800080005000
            added = f"{begin:x} d cpucap_ptrs\n{begin + 8 * size:x} d next\n"
            with self.subTest(size=size):
                answer = self.answer("--on", "SPECTRE_V4", change=lambda text, added=added: text + added)
                self.assertEqual(answer[0], status, answer[2])
                self.assertEqual("--caps has 97 numbers" in answer[2], bool(status))


class Rules(unittest.TestCase):
    """The kernel's rules on plain registers."""

    def facts(self, early=(), **fields):
        system = dict.fromkeys(profile.tracked(), 0)
        return linux.Facts({**system, **fields}, {}, list(early))

    def test_fields(self):
        for name, fields in [
            ("HAS_ADDRESS_AUTH", {"id_aa64isar1_el1": 1 << 8}),
            ("HAS_ADDRESS_AUTH", {"id_aa64isar2_el1": 1 << 12}),
            ("HAS_GENERIC_AUTH", {"id_aa64isar1_el1": 1 << 28}),
            ("HAS_CACHE_IDC", {"ctr_el0": 1 << 28}),
            ("HAS_CACHE_DIC", {"ctr_el0": 1 << 29}),
            ("HAS_ECV", {"id_aa64mmfr0_el1": 1 << 60}),
            ("HAS_NO_FPSIMD", {"id_aa64pfr0_el1": 0xF << 16}),
            ("HAS_32BIT_EL1", {"id_aa64pfr0_el1": 2 << 4}),
        ]:
            with self.subTest(name=name):
                self.assertTrue(linux.RULES[name].holds(self.facts(**fields)))
                self.assertFalse(linux.RULES[name].holds(self.facts()))

    def test_errata(self):
        for name, midr, least, ctr in [
            ("WORKAROUND_1742098", 0x410FD070, 1, 0),
            ("WORKAROUND_1418040", 0x410FD0C0, 0, 0),
            ("WORKAROUND_1542419", 0x410FD0C0, 0, 1 << 29),
            ("WORKAROUND_QCOM_FALKOR_E1003", 0x510F2050, 0, 0),
        ]:
            core = {"midr_el1": midr | least, "ctr_el0": ctr}
            with self.subTest(name=name):
                self.assertTrue(linux.RULES[name].holds(self.facts([{"midr_el1": 0}, core])))
                self.assertFalse(linux.RULES[name].holds(self.facts([{"midr_el1": midr ^ 1 << 24, "ctr_el0": ctr}])))
        self.assertFalse(linux.RULES["WORKAROUND_1742098"].holds(self.facts([{"midr_el1": 0x410FD070}])))
        self.assertFalse(linux.RULES["WORKAROUND_1542419"].holds(self.facts([{"midr_el1": 0x410FD0C0}])))
        mended = {"midr_el1": 0x411FD461, "revidr_el1": 1 << 25}
        self.assertFalse(linux.RULES["WORKAROUND_2658417"].holds(self.facts([mended])))


if __name__ == "__main__":
    unittest.main()
