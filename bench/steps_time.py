#!/usr/bin/env python3
"""`report` and `trace` on many cores and on many steps, against `cat FILE | cat`.

Builds nothing: run `make` first; a word that the program does not know is left out. Prints the times (the best of some runs each),
their ratio, and for the long texts the time of the first half of their steps against that of all. It is no test: it asserts nothing.

usage: bench/steps_time.py [PROGRAM]
"""
import pathlib
import sys
import tempfile

import measure

RUNS = 15
TEXT = 1_048_576


def cores(count, form):
    """Cores of two kinds, whose registers differ in some fields."""
    text = f"armcaps {form}\n"
    for core in range(count):
        midr = 0x410FD092 if core % 4 == 3 else 0x410FD034
        text += f"core {core}\nmidr_el1 {midr:#x}\nmpidr_el1 {core:#x}\nid_aa64pfr0_el1 0x100002222\nid_aa64dfr0_el1 0x10305106\n"
        text += f"id_aa64isar0_el1 {0x10211120 + core % 3:#x}\nid_aa64mmfr0_el1 0x1122\nctr_el0 0x84448004\ndczid_el0 4\n"
    return text + "boot 0\n"


def at_once(count, form):
    """All cores at the same time, the second half of them after finalise."""
    half = range(1, count // 2 + 1)
    rest = range(count // 2 + 1, count)
    text = cores(count, form)
    for group, last in ((half, "finalise\n"), (rest, "end\n")):
        for word in ("check", "local", "store"):
            text += "".join(f"{word} {core}\n" for core in group)
        text += last
    return text


def until(text, lines, part):
    """The text with as many of the groups of lines as this part of the limit allows."""
    room = int((TEXT - len(text) - 4) * part)
    made = []
    for group in lines:
        room -= len(group)
        if room < 0:
            break
        made.append(group)
    return text + "".join(made) + "end\n"


def returns(part):
    """One of two cores comes and goes."""
    text = "armcaps 2\ncore 0\ncore 1\nboot 0\nfinalise\nonline 1\n"
    return until(text, iter(lambda: "offline 1\nonline 1\n", None), part)


def spelled(part):
    """The same of 16 cores, early, with each of the three steps written out."""
    text = cores(16, 2)
    groups = (f"check {core}\nlocal {core}\nstore {core}\noffline {core}\n" for _ in range(1 << 20) for core in range(1, 16))
    return until(text, groups, part).removesuffix("end\n") + "finalise\nend\n"


def main():
    program = sys.argv[1] if len(sys.argv) > 1 else measure.PROGRAM
    known = [word for word in ("report", "trace") if word in measure.words(program)]
    texts = [
        ("64 cores, format 1", lambda part: at_once(64, 1), False),
        ("512 cores, format 2", lambda part: at_once(512, 2), False),
        ("1 MiB of returns of one core", returns, True),
        ("1 MiB of steps of 16 cores", spelled, True),
    ]
    with tempfile.TemporaryDirectory() as folder:
        for name, text, halves in texts:
            paths = []
            for part in (1.0, 0.5) if halves else (1.0,):
                paths.append(f"{folder}/input{part}")
                pathlib.Path(paths[-1]).write_text(text(part))
            for word in known:
                ours, theirs = measure.best([[program, word], measure.CAT], paths[0], RUNS)
                line = f"{word:7}{name:30}{ours.seconds * 1000:9.1f} ms, cat {theirs.seconds * 1000:6.1f} ms"
                line += f", ratio {ours.seconds / theirs.seconds:6.2f}, peak {ours.peak / 1048576:.1f} MiB, status {ours.status}"
                if halves:
                    (half,) = measure.best([[program, word]], paths[1], RUNS)
                    line += f", against half of it {ours.processor / half.processor:.2f}"
                print(line, flush=True)


if __name__ == "__main__":
    main()
