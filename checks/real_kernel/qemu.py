"""QEMU's boards: what the bare program prints of their cores, and the boot of a kernel with its memory."""

import dataclasses
import pathlib
import re
import socket
import subprocess
import time

LOADED = 0x40200000  # where QEMU puts an Image that asks for the begin of a block of 2 MiB
WAIT = 900
WARNING = re.compile(r"WARNING:|BUG:|Call trace|Kernel panic|Oops|Unable to handle")


@dataclasses.dataclass(frozen=True)
class Board:
    """A model of cores, what QEMU's board has beyond it, and the kernel's command line."""

    cpu: str
    options: str = ""
    cmdline: str = ""

    @property
    def name(self):
        return " ".join(part for part in (self.cpu, self.options.replace("=on", "").strip(","), self.cmdline) if part)

    def command(self, cores, *more):
        machine = "virt,gic-version=3" + ("," + self.options if self.options else "")
        machine = ["-M", machine, "-m", "512", "-smp", str(cores), "-cpu", self.cpu]
        return ["qemu-system-aarch64", *machine, "-display", "none", "-nic", "none", *more]


def command_line(board):
    """The kernel's command line: its log stays off the serial port, where the guest's program prints."""
    return f"console=ttyAMA0 nokaslr quiet loglevel=0 {board.cmdline}".strip()


def machine_text(board, cores, bare):
    """The machine text that the bare program prints of a board, as text."""
    command = board.command(cores, "-monitor", "none", "-serial", "stdio", "-kernel", str(bare))
    done = subprocess.run(command, stdin=subprocess.DEVNULL, capture_output=True, timeout=WAIT, check=True)
    return done.stdout.decode("ascii").replace("\r", "")


@dataclasses.dataclass
class Boot:
    """What a guest printed, and the memory where its kernel is."""

    hwcaps: tuple
    reads: dict
    online: list
    offline: list
    log: list
    memory: bytes
    told: str

    def warnings(self):
        """The lines of the log that tell of a warning, without their times."""
        found = [line for line in self.log if WARNING.search(line)]
        return [re.sub(r"^(<\d+>)?\[ *[\d.]+\] ", "", line) for line in found]

    def detected(self):
        return sorted(line.partition("CPU features: ")[2] for line in self.log if "CPU features: detected" in line)

    def has_firmware_calls(self):
        """Whether the firmware has the calls that a conduit is patched for."""
        return any("SMC Calling Convention v1.1" in line for line in self.log)


class Failed(Exception):
    """A guest that did not come as far as it should."""


class Monitor:
    """QEMU's monitor, over its socket."""

    def __init__(self, path):
        self.socket = socket.socket(socket.AF_UNIX)
        self.socket.connect(str(path))
        self.answer()

    def answer(self):
        data = b""
        while not data.endswith(b"(qemu) "):
            piece = self.socket.recv(65536)
            if not piece:
                break
            data += piece
        return data

    def ask(self, line):
        self.socket.sendall(line.encode() + b"\n")
        return self.answer()


def boot(board, cores, image, initrd, folder, length):
    """Boots an image until its program waits, and reads `length` bytes of its memory."""
    folder = pathlib.Path(folder)
    serial, monitor, memory = folder / "serial", folder / "monitor", folder / "memory"
    for path in (serial, monitor, memory):
        path.unlink(missing_ok=True)
    command = board.command(cores, "-monitor", f"unix:{monitor},server,nowait", "-serial", f"file:{serial}")
    line = command_line(board)
    command += ["-kernel", str(image), "-initrd", str(initrd), "-append", line]
    guest = subprocess.Popen(command, stdin=subprocess.DEVNULL, stderr=subprocess.PIPE)
    try:
        wait_for(guest, serial, b"@ready")
        console = Monitor(monitor)
        console.ask("stop")
        if length:
            console.ask(f'pmemsave {LOADED:#x} {length:#x} "{memory}"')
        held = memory.read_bytes() if length else b""
    finally:
        guest.kill()
        guest.wait()
    return parsed(serial.read_text(encoding="utf-8", errors="replace"), held)


def wait_for(guest, serial, mark):
    until = time.monotonic() + WAIT
    while time.monotonic() < until:
        told = serial.read_bytes() if serial.exists() else b""
        if mark in told:
            return
        if guest.poll() is not None:
            raise Failed(guest.stderr.read().decode("utf-8", "replace"))
        if b"Kernel panic" in told:
            time.sleep(1)
            break
        time.sleep(0.2)
    told = "\n".join(serial.read_text(errors="replace").splitlines()[-25:])
    raise Failed(f"the guest did not come to its end:\n{told}")


def parsed(told, memory):
    lines = told.replace("\r", "").splitlines()
    found = Boot((0, 0), {}, [], [], [], memory, told)
    for line in lines:
        tokens = line.split()
        if line.startswith("@hwcap"):
            found.hwcaps = (int(tokens[1], 16), int(tokens[2], 16))
        elif line.startswith("@mrs"):
            found.reads[int(tokens[1]), int(tokens[2], 16)] = None if tokens[3] == "undefined" else int(tokens[3], 16)
        elif line.startswith("@online"):
            found.online.append(" ".join(tokens[1:]))
        elif line.startswith("@offline"):
            found.offline.append(" ".join(tokens[1:]))
    begin, end = lines.index("@log") + 1, lines.index("@end")
    found.log = lines[begin:end]
    return found
