#!/usr/bin/env python3
"""`pool` of many machines of many cores, and armcaps-fleet on a fleet of many texts.

Builds nothing: run `make` first. Prints the time (the best of some runs), processor time and memory beyond the input of
`report` and `pool` on one machine of 512 cores, and of `pool` on 32 and on 64 such machines; then the time of tools/fleet on a
folder of so many texts (100,000, or COUNT) of machines of 8 cores, 300 of them different. It is no test: it asserts nothing.

usage: bench/pool_time.py [PROGRAM [COUNT]]
"""
import os
import pathlib
import resource
import subprocess
import sys
import tempfile
import time

import measure

KINDS = 300


def machine(cores, number):
    """A machine of cores of two kinds, of which some fields follow its number."""
    text = "armcaps 2\n"
    for core in range(cores):
        midr = 0x410FD092 if core % 4 == 3 else 0x410FD034
        atomic, crc32, ecv = number % 3, 1 + number % 2, number // 6 % 3
        text += f"core {core}\nmidr_el1 {midr:#x}\nmpidr_el1 {core:#x}\n"
        text += f"id_aa64pfr0_el1 {0x100002222 | number % 5 << 28:#x}\n"
        text += f"id_aa64dfr0_el1 0x10305106\nid_aa64isar0_el1 {0x1120 | atomic << 20 | crc32 << 16:#x}\n"
        text += f"id_aa64mmfr0_el1 {ecv << 60 | 0x1122:#x}\nctr_el0 0x84448004\ndczid_el0 4\nrevidr_el1 {number}\n"
    return text + "boot 0\n" + "".join(f"online {core}\n" for core in range(1, cores)) + "finalise\nend\n"


def show(what, found, size):
    print(f"{what}: {found.seconds:.3f} s, processor {found.processor:.3f} s, ", end="")
    print(f"{(found.peak - size) / 1048576:.1f} MiB beyond {size} bytes of input", flush=True)
    if found.status or found.told:
        print(f"  status {found.status}, {found.told.decode().strip()}")


def pools(program, folder):
    path = pathlib.Path(folder) / "input"
    for word, count in (("report", 1), ("pool", 1), ("pool", 32), ("pool", 64)):
        path.write_text("".join(machine(512, number) for number in range(count)), encoding="utf-8")
        (found,) = measure.best([[program, word]], path, measure.RUNS)
        show(f"{word} of {count} machines of 512 cores", found, path.stat().st_size)


def fleet(program, folder, count):
    kinds = [machine(8, number).encode() for number in range(KINDS)]
    for number in range(count):
        place = pathlib.Path(folder) / f"rack{number // 1000:03}"
        if number % 1000 == 0:
            place.mkdir()
        (place / f"{number % 1000:03}.txt").write_bytes(kinds[number * 7919 % KINDS])
    begin = time.perf_counter()
    command = [str(measure.TOP / "tools/fleet"), folder]
    ran = subprocess.run(command, env={**os.environ, "ARMCAPS": program}, capture_output=True, check=False)
    seconds, peak = time.perf_counter() - begin, resource.getrusage(resource.RUSAGE_CHILDREN).ru_maxrss / 1024
    print(f"fleet of {count} texts of 8 cores, {KINDS} of them different: {seconds:.1f} s, {peak:.0f} MiB")
    print(f"  {(ran.stdout or ran.stderr).decode().splitlines()[0]}")


def main():
    program, count = (sys.argv[1:2] or [measure.PROGRAM])[0], int((sys.argv[2:3] or [100_000])[0])
    if "pool" not in measure.words(program):
        print("the program has no word `pool`")
        return
    with tempfile.TemporaryDirectory() as folder:
        pools(program, folder)
    with tempfile.TemporaryDirectory() as folder:
        fleet(program, folder, count)


if __name__ == "__main__":
    main()
