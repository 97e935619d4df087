#!/usr/bin/env python3
"""Reading the longest machine texts against their halves: the time of each text and of the first half of its lines.

Each text has about 1,048,576 bytes and a last line that is refused, so that nothing but reading is timed; the time of the least text
is taken off. Where a time is too short to tell, no ratio is shown. It is no test: it asserts nothing, but it ends with status 1 where
a ratio is above 2.2, which no linear reading has.

usage: bench/text_time.py [PROGRAM [WORD..]]      the program, with `report` where no words are given
"""
import pathlib
import subprocess
import sys
import tempfile
import time

TEXT = 1_048_576
RUNS = 40
MOST = 2.2
LEAST = 0.004
CORES = "core 0\ncore 1\n"
READY = CORES + "boot 0\nfinalise\n"


def until(lines, size):
    """as many of the lines as have this many bytes"""
    out, length = [], 0
    for line in lines:
        length += len(line) + 1
        if length > size:
            break
        out.append(line)
    return "".join(line + "\n" for line in out)


def given():
    return (f"given {number} FIRMWARE_STATE on" for number in range(32768))


def callbacks():
    # offsets in no order
    return (f"callback {number * 7919 % 134217728} keep" for number in range(10**6))


def returns():
    while True:
        yield "online 1"
        yield "offline 1"


def spelled():
    # three steps of a core that comes and goes
    while True:
        yield from ("check 1", "local 1", "store 1", "offline 1")


def repeated(line):
    while True:
        yield line


def registers(cores):
    names = pathlib.Path(__file__).resolve().parent.parent / "crates/armcaps_enc/specs/Registers.antt"
    found = [word for word in names.read_text().replace('"', " ").split() if word.endswith(("_el1", "_el0"))]
    for core in range(cores):
        yield f"core {core}"
        for name in dict.fromkeys(found):
            yield f"{name} 0x{2**64 - 1 - core:016x}"


TEXTS = [
    ("given lines", 1, READY, given),
    ("callback lines", 1, READY, callbacks),
    ("online and offline of one core", 2, CORES + "boot 0\n", returns),
    ("check, local, store, offline", 2, CORES + "boot 0\n", spelled),
    ("512 cores and their registers", 2, "", lambda: registers(512)),
    ("empty lines", 1, "", lambda: repeated("")),
    ("comments", 1, "", lambda: repeated("# a comment that says nothing")),
    ("a line of many tokens", 1, READY, lambda: iter(["given" + " 1" * 500_000])),
    ("a line of spaces", 1, "", lambda: iter([" " * 1_000_000])),
    ("a command line", 1, "core 0\nboot 0\n", lambda: iter(["cmdline " + "id_aa64isar0.aes=1 " * 107])),
]


def best(command, path):
    times = []
    for _ in range(RUNS):
        with open(path, "rb") as source:
            begin = time.perf_counter()
            subprocess.run(command, stdin=source, stdout=subprocess.DEVNULL, stderr=subprocess.DEVNULL)
            times.append(time.perf_counter() - begin)
    return min(times)


def text(form, head, lines, size):
    header = f"armcaps {form}\n{head}"
    body = until(lines(), size - len(header))
    if not body:
        body = next(iter(lines()))[: size - len(header)] + "\n"
    return (header + body + "?\n").encode()


def main():
    top = pathlib.Path(__file__).resolve().parent.parent
    command = sys.argv[1:] or [str(top / "crates/armcaps/out/armcaps"), "report"]
    if len(command) == 1:
        command.append("report")
    worst = 0.0
    with tempfile.TemporaryDirectory() as folder:
        path = f"{folder}/input"
        pathlib.Path(path).write_bytes(b"?\n")
        none = best(command, path)
        print(f"{'nothing':34}{none * 1000:9.1f} ms")
        for name, form, head, lines in TEXTS:
            times = []
            whole = text(form, head, lines, TEXT - 16)
            for size in (len(whole) // 2, TEXT - 16):
                pathlib.Path(path).write_bytes(text(form, head, lines, size))
                times.append(best(command, path) - none)
            half, full = times
            ratio = full / half if half > LEAST else None
            worst = max(worst, ratio or 0.0)
            shown = f"{ratio:6.2f}" if ratio else "     -"
            print(f"{name:34}{full * 1000:9.1f} ms{half * 1000:9.1f} ms{shown}  {len(whole)} bytes")
    return 1 if worst > MOST else 0


if __name__ == "__main__":
    sys.exit(main())
