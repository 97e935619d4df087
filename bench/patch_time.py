#!/usr/bin/env python3
"""`patch` on images with large tables of alternatives, against bench/hold.c, which only reads all its input and writes it out.

Builds bench/hold.c (a C compiler is wanted) and no other program: run `make` first. The documents are those of patch_documents.py,
of their usual number of entries and length of image where none is given. For each it prints the time of all with their output piped to
cat (the best of some runs each, made in turn), the ratios, the processor time that an entry costs beyond hold, and the memory beyond
the input; then how the processor time beyond hold grows from half of the entries to all of them. It is no test: it asserts nothing.

usage: bench/patch_time.py [PROGRAM [NAME[:COUNT[:LENGTH]]..]]
       ARMCAPS_OTHER: another program that knows `patch`, measured beside it
"""
import pathlib
import subprocess
import sys
import tempfile

import measure
from patch_documents import DOCUMENTS


def measured(programs, hold, folder, name, count, length):
    """The best runs of hold and of the programs, and the length of the input."""
    path = f"{folder}/input"
    # in a process of its own, so that this one stays small
    with open(path, "wb") as file:
        maker = str(measure.TOP / "bench/patch_documents.py")
        if subprocess.run([sys.executable, maker, name, str(count), "1", str(length)], stdout=file, check=False).returncode:
            sys.exit(1)
    found = measure.best([[hold]] + [[program, "patch"] for program in programs], path, measure.RUNS, piped=True)
    return found, pathlib.Path(path).stat().st_size


def tell(program, run, floor, size, count):
    """What a program took for a document."""
    beyond = (run.processor - floor.processor) / count * 1e9
    print(f"  {program}: {run.seconds:.3f} s, hold {floor.seconds:.3f} s, ratio {run.seconds / floor.seconds:.2f}")
    print(f"    processor {run.processor:.3f} s, hold {floor.processor:.3f} s, {beyond:.0f} ns an entry beyond it")
    print(f"    peak beyond the input {(run.peak - size) / 1048576:.1f} MiB, {(run.peak - size) / count:.1f} bytes an entry", end="")
    print(f", of hold {(floor.peak - size) / 1048576:.1f} MiB", flush=True)
    if run.status or run.told:
        print(f"    status {run.status}, {run.told.decode().strip()}")


def show(programs, hold, folder, name, count, length):
    """A document by all programs, and armcaps on one of half as many entries."""
    (floor, *runs), size = measured(programs, hold, folder, name, count, length)
    print(f"{name}: {count} entries, {size} bytes")
    for program, run in zip(programs, runs):
        tell(program, run, floor, size, count)
    for program, run in zip(programs[1:], runs[1:]):
        print(f"  armcaps against {program}: ratio {runs[0].seconds / run.seconds:.2f}", end="")
        print(f", peak {(runs[0].peak - run.peak) / 1048576:+.1f} MiB", end=", ")
        print(measure.compared([programs[0], "patch"], [program, "patch"], f"{folder}/input"), flush=True)
    if count > 100_000:
        (half_floor, half), _ = measured(programs[:1], hold, folder, name, count // 2, length)
        grown = (runs[0].processor - floor.processor) / (half.processor - half_floor.processor)
        print(f"  beyond hold, {count} entries against {count // 2}: {grown:.2f}", flush=True)


def main():
    program = sys.argv[1] if len(sys.argv) > 1 else measure.PROGRAM
    if "patch" not in measure.words(program):
        print("the program has no word `patch`")
        return
    with tempfile.TemporaryDirectory() as folder:
        hold = measure.hold(folder)
        for asked in sys.argv[2:] or DOCUMENTS:
            name, *numbers = asked.split(":")
            _, length, count = DOCUMENTS[name]
            count, length, *_ = [*map(int, numbers), *(count, length)[len(numbers) :]]
            show([program, *measure.others()], hold, folder, name, count, length)


if __name__ == "__main__":
    main()
