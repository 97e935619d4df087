"""One kernel on one board: what the program says beside what the kernel did. All that was seen is kept in a folder."""

import json
import pathlib
import subprocess
import tempfile

from armcaps_tools import machine

from . import compare, labels, qemu

TOP = pathlib.Path(__file__).resolve().parent.parent.parent
CORES = 4
RESULT = "result.json"


class Trial:
    """One kernel on one board; `kept` is the folder of what is kept."""

    def __init__(self, program, build, board, guest, kept):
        self.program, self.build, self.board = program, build, board
        self.initrd, self.kept = guest[0], kept
        self.kernel = build.kernel()
        kept.mkdir(parents=True, exist_ok=True)
        text = qemu.machine_text(board, CORES, guest[1])
        self.text = compare.with_cmdline(text, qemu.command_line(board)).encode()
        self.keep("machine.txt", self.text)
        self.conduit = "none"

    def keep(self, name, data):
        (self.kept / name).write_bytes(data if isinstance(data, bytes) else data.encode())

    def written(self, *options):
        """What kernel2text adds to the machine's text."""
        files = ["--image", self.build.image, "--nm", self.build.nm, "--caps", self.build.caps]
        command = [TOP / "tools/kernel2text", *files, "--conduit", self.conduit, "--callback", "*=keep", *options, "-"]
        return subprocess.run(command, input=self.text, capture_output=True, check=True).stdout

    def patched(self, written):
        given = written + self.kernel.image
        return subprocess.run([self.program, "patch"], input=given, stdout=subprocess.PIPE, check=True).stdout

    def boot(self, name, image, length=0):
        """Boots an image; what the guest printed is kept under a name."""
        with tempfile.TemporaryDirectory() as folder:
            path = pathlib.Path(folder) / "image"
            path.write_bytes(image)
            booted = qemu.boot(self.board, CORES, path, self.initrd, folder, length)
        self.keep(f"{name}.serial", booted.told)
        return booted

    def numbers(self, memory):
        """The options that make the numbers those of the kernel, and the numbers that they change."""
        names, theirs = self.build.names(), compare.bitmap(self.kernel, memory)
        ours = {number: state for number, (_, state) in machine.decided(self.written("--running")).items()}
        on = [names[number] for number, state in ours.items() if number in theirs and not state]
        off = [names[number] for number, state in ours.items() if number not in theirs and state]
        options = (["--on", ",".join(on)] if on else []) + (["--off", ",".join(off)] if off else [])
        return options, [f"{name} on in Linux" for name in on] + [f"{name} off in Linux" for name in off], len(ours)

    def result(self, is_control):
        """What came out, as plain values; on the board of the control also what the check has to see."""
        original = self.boot("original", self.kernel.image, self.kernel.offset("_end"))
        if original.has_firmware_calls():
            self.conduit = "smc" if "virtualization" in self.board.options else "hvc"
        options, numbers, count = self.numbers(original.memory)
        text = self.written("--running", *options)
        self.keep("running.txt", text)
        sites = compare.sites(self.kernel, self.patched(text), original.memory)
        self.keep("differ.tsv", sites.table())
        reads, places = compare.reads(self.program, self.text, original.reads)
        found = {"board": self.board.name, "kernel": self.build.version, "conduit": self.conduit, "numbers": numbers}
        found |= {"numbers compared": count, "hwcaps": compare.hwcaps(self.program, self.text, original.hwcaps)}
        found |= {"reads": reads, "reads compared": places, "sites": sites.compared, "sites changed": sites.changed}
        found |= {"sites freed": sites.freed, "callbacks": dict(sites.callbacks), "strange": sites.strange}
        found |= self.labels(original.memory, sites.strange)
        found |= self.booted(original)
        found |= {"warned": self.warned()} if is_control else {}
        self.keep(RESULT, json.dumps(found, indent=1) + "\n")
        return found

    def labels(self, memory, strange):
        """`jump` on the kernel's memory, whose keys are as the kernel left them: each word is as the kernel made it."""
        begin, count = self.kernel.jump_table()
        text = self.text.removesuffix(b"end\n") + b"image %d\n" % len(memory)
        command = [self.program, "jump", f"{begin:#x}", str(count)]
        out = subprocess.run(command, input=text + memory, stdout=subprocess.PIPE, check=True).stdout
        entries = labels.of_table(memory, begin, count)
        places = {entry.code: entry for entry in entries}
        kept = {code for code in places if not compare.is_freed(self.kernel, code)}
        if labels.rest_of(out, places) != labels.rest_of(memory, places):
            strange.append("jump on the memory: bytes outside code places changed")
        differ = sorted(code for code in kept if out[code : code + 4] != memory[code : code + 4])
        strange += [f"jump on the memory: the word at {code:#x} is another one" for code in differ]
        on = {entry.key for entry in entries if entry.is_on(memory)}
        taken = sum(places[code].is_on(memory) != places[code].branch for code in kept)
        return {"labels": len(kept), "label keys on": len(on), "labels taken": taken, "labels that differ": len(differ)}

    def booted(self, original):
        """What came of the image that is to boot."""
        text = self.written()
        self.keep("boots.txt", text)
        image = self.patched(text)
        again = self.boot("boots", image)
        changed = sum(image[at : at + 4] != self.kernel.image[at : at + 4] for at in range(0, len(image), 4))
        same = all(
            one == other
            for one, other in [
                (again.hwcaps, original.hwcaps),
                (again.reads, original.reads),
                (again.detected(), original.detected()),
            ]
        )
        new = [line for line in again.warnings() if line not in original.warnings()]
        back = again.offline == [f"1-{CORES - 1}"] and again.online == [f"0-{CORES - 1}"] * 2
        return {"boot words": changed, "new warnings": new, "boot same": same, "cores back": back}

    def warned(self):
        """How many warnings come where the image of a kernel that runs is booted: what the check has to see."""
        warnings = self.boot("running", self.patched(self.written("--running"))).warnings()
        return sum("WARNING" in line for line in warnings)
