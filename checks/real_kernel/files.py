"""`elf` on a kernel's own file and `jump` on its padded image, beside what patch, readelf, nm and objdump say.

No guest runs here. The files are Debian's vmlinux with all that it has, one without debug information, and one that has
its loaded sections alone; the image is the one that `patch` gets.
"""

import bisect
import collections
import json
import pathlib
import re
import shutil
import subprocess

from armcaps_tools import kernel, machine, vmlinux

from . import labels as jump_labels
from . import objects, qemu
from .trial import RESULT, TOP

BOARD = qemu.Board("max", "virtualization=on")
CORES = 4


class Failed(Exception):
    """A program that ends with another status than 0."""


class Files:
    """A kernel's files with one machine; `kept` is the folder of what is kept, `work` one of large files for a time."""

    def __init__(self, program, build, guest, kept, work):
        self.program, self.build, self.kept, self.work = program, build, kept, work
        for folder in (kept, work):
            folder.mkdir(parents=True, exist_ok=True)
        self.machine = qemu.machine_text(BOARD, CORES, guest[1]).encode()
        (kept / "machine.txt").write_bytes(self.machine)

    def written(self, name, given, *options):
        """What kernel2text writes for a machine's text, and what it says; both are kept under a name."""
        common = ["--caps", self.build.caps, "--running", "--conduit", "smc", "--callback", "*=keep"]
        command = [TOP / "tools/kernel2text", *options, *common, "-"]
        done = subprocess.run(command, input=given, capture_output=True, check=True)
        (self.kept / f"{name}.txt").write_bytes(done.stdout)
        (self.kept / f"{name}.said").write_bytes(done.stderr)
        return done.stdout, done.stderr.decode()

    def run(self, words, text, file):
        """What the program writes for a text with a file behind it."""
        given, out = self.work / "given", self.work / "out"
        with given.open("wb") as target:
            target.write(text)
            target.write(file)
        with given.open("rb") as source, out.open("wb") as target:
            named = {"stdin": source, "stdout": target, "stderr": subprocess.PIPE}
            done = subprocess.run([self.program, *words], check=False, **named)
        given.unlink()
        if done.returncode:
            told = done.stderr.decode("utf-8", "replace").strip()
            raise Failed(f"{' '.join(words)}: status {done.returncode}: {told}")
        return out.read_bytes()

    def result(self):
        """What came out, as plain values."""
        found = {"kernel": self.build.version, "strange": []}
        try:
            found["elf"] = self.elf(found["strange"])
            found["jump"] = self.jump(found["strange"])
        except (Failed, subprocess.CalledProcessError) as failure:
            found["strange"].append(str(failure))
        finally:
            shutil.rmtree(self.work)
        (self.kept / RESULT).write_text(json.dumps(found, indent=1) + "\n")
        return found

    def elf(self, strange):
        """`elf` on the three files: all that is loaded is what `patch` makes of the image, all else as it was."""
        image = self.build.image.read_bytes()
        text, _ = self.written("image", self.machine, "--image", self.build.image, "--nm", self.build.nm)
        patched = self.run(["patch"], text, image)
        whole, light, bare = (self.build.image.parent / "vmlinux", self.work / "light", self.work / "bare")
        objects.strip(whole, light, "--strip-debug")
        objects.strip(whole, bare, "--strip-all")
        text, _ = self.written("whole", self.machine, "--vmlinux", whole)
        found = {"whole": self.one_file("whole", text, whole, patched, strange)}
        text, _ = self.written("light", format_1(self.machine), "--vmlinux", light)
        found["light"] = self.one_file("light", text, light, patched, strange)
        text = re.sub(rb"^image \d+$", b"image %d" % bare.stat().st_size, text, flags=re.MULTILINE)
        found["bare"] = self.one_file("bare", text, bare, patched, strange)
        changed = [at for at in range(0, len(image), 4) if image[at : at + 4] != patched[at : at + 4]]
        found |= self.sites(image, changed, machine.decided(text), strange)
        return found | self.disassembled(light, changed, strange)

    def one_file(self, name, text, path, patched, strange):
        """One file by `elf`: how long it is, and whether it is to the byte what `patch` and the original say."""
        original = path.read_bytes()
        file = vmlinux.Vmlinux(original)
        expected, base = bytearray(original), file.base()
        for section in file.loaded():
            at = section.address - base
            expected[section.place : section.place + section.size] = patched[at : at + section.size]
        out = self.run(["elf"], text, original)
        if out != expected:
            strange.append(f"elf, {name}: is not what patch makes of the image")
        written = self.work / f"{name}.out"
        written.write_bytes(out)
        if objects.headers(path) != objects.headers(written):
            strange.append(f"elf, {name}: readelf reads other headers")
        formats = {b"armcaps 1": 1, b"armcaps 2": 2}
        return {"bytes": len(out), "loaded sections": len(file.loaded()), "format": formats[text.split(b"\n")[0]]}

    def sites(self, image, changed, numbers, strange):
        """The words that changed, each in a site of a selected entry, by symbol."""
        known = kernel.of_image(image, kernel.symbols(self.build.nm.read_bytes()))
        sites = set()
        for entry in known.entries():
            if numbers[entry.number][1]:
                sites.update(range(entry.site, entry.site + entry.length, 4))
        strange += [f"elf: the word at {at:#x} is in no selected site" for at in changed if at not in sites]
        names = sorted((offset, name) for name, offset in known.offsets.items() if not name.startswith("$"))
        places = [offset for offset, _ in names]
        count = collections.Counter(names[bisect.bisect_right(places, at) - 1][1] for at in changed)
        (self.kept / "symbols.tsv").write_text("".join(f"{name}\t{words}\n" for name, words in count.most_common()))
        return {"words changed": len(changed), "symbols": len(count), "words of sites": len(sites)}

    def disassembled(self, light, changed, strange):
        """What objdump reads in the file without debug information, before and after."""
        base = vmlinux.Vmlinux(light.read_bytes()).base()
        words = objects.differing_words(light, self.work / "light.out")
        told = {address - base for address, _, _ in words}
        executable = objects.executable(light)
        expected = {at for at in changed if any(begin <= at + base < end for begin, end in executable)}
        if told != expected:
            strange.append(f"objdump shows other words changed: {sorted(told ^ expected)[:5]}")
        undefined = [address for address, _, after in words if ".inst" in after or "undefined" in after]
        strange += [f"objdump knows no instruction at {address:#x}" for address in undefined]
        lines = "".join(f"{address:#x}\t{before}\t{after}\n" for address, before, after in words)
        (self.kept / "words.tsv").write_text(lines)
        return {"words that objdump shows": len(words)}

    def jump(self, strange):
        """`jump` on the padded image, as it was built and with each key switched on."""
        padded = self.work / "padded"
        options = ["--image", self.build.image, "--nm", self.build.nm, "--padded", padded]
        text, said = self.written("jump", self.machine, *options)
        told = re.search(r"`(jump (0x[0-9a-f]+) (\d+))`", said)
        words, table, count = told[1].split(), int(told[2], 16), int(told[3])
        image = padded.read_bytes()
        labels = jump_labels.of_table(image, table, count)
        names = kernel.of_image(image, kernel.symbols(self.build.nm.read_bytes())).names_at()
        found = {"entries": count, "keys": len({label.key for label in labels}), "padded": len(image)}
        built = self.run(words, text, image)
        found |= self.as_built(image, self.run(["patch"], text, image), built, labels, names, strange)
        keys = sorted({label.key for label in labels})
        found["branches"] = self.switched(words, text, image, keys, labels, strange)
        found["branches of half"] = self.switched(words, text, image, keys[::2], labels, strange)
        return found

    def as_built(self, image, patched, out, labels, names, strange):
        """The words at the code places of the image as it was built: those that are kept, and those whose key is on."""
        places = {label.code: label for label in labels}
        if jump_labels.rest_of(out, places) != jump_labels.rest_of(patched, places):
            strange.append("jump: bytes outside code places are not those of patch")
        kept = {at for at in places if out[at : at + 4] == image[at : at + 4]}
        others, off = sorted(set(places) - kept), []
        for at in others:
            if not places[at].is_on(image):
                off.append(at)
        strange += [f"jump: the word at {at:#x} changed, and its key is off" for at in off]
        named = collections.Counter(names.get(places[at].key, [f"{places[at].key:#x}"])[0] for at in others)
        (self.kept / "keys.tsv").write_text("".join(f"{name}\t{words}\n" for name, words in named.most_common()))
        on = {label.key for label in labels if label.is_on(image)}
        return {"places": len(places), "kept": len(kept), "changed": len(others), "keys on": len(on)}

    def switched(self, words, text, image, keys, labels, strange):
        """How many words are a branch with some keys on; objdump has to show each as `b` to the entry's target."""
        on = bytearray(image)
        for key in keys:
            on[key : key + 4] = (1).to_bytes(4, "little")
        out, patched = self.run(words, text, on), self.run(["patch"], text, on)
        last = {label.code: label for label in labels}
        if jump_labels.rest_of(out, last) != jump_labels.rest_of(patched, last):
            strange.append("jump, keys on: bytes outside code places are not those of patch")
        file = self.work / "switched"
        file.write_bytes(out)
        told, branches = objects.flat_words(file, set(last)), 0
        for code, label in last.items():
            taken = label.is_on(patched) != label.branch
            branches += taken
            wanted = f"b {label.target:#x}" if taken else "nop"
            if told.get(code) != wanted:
                strange.append(f"jump, keys on: {code:#x} is {told.get(code)} and not {wanted}")
        return branches


def format_1(given):
    """A machine text in format 1, which has no vector lengths."""
    return re.sub(rb"^sve_vl .*\n", b"", given.replace(b"armcaps 2\n", b"armcaps 1\n", 1), flags=re.MULTILINE)
