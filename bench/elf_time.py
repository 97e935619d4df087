#!/usr/bin/env python3
"""`elf` on files like a kernel's, against bench/hold.c, which only reads all its input and writes it out.

Builds bench/hold.c (a C compiler is wanted) and no other program: run `make` first. The documents are those of elf_documents.py.
For each it prints the time of both with their output piped to cat (the best of some runs each), the ratio, and the peak memory;
then how the processor time beyond hold grows from half of the entries or sections to all of them. It is no test: it asserts
nothing.

usage: bench/elf_time.py [PROGRAM [NAME..]]
       ARMCAPS_OTHER: another program that knows `elf`, measured beside it
"""
import pathlib
import subprocess
import sys
import tempfile

import measure
from elf_documents import DOCUMENTS


def measured(programs, hold, folder, name, share):
    """The best runs of hold and of the programs, and the length of the input."""
    path = f"{folder}/input"
    # in a process of its own, so that this one stays small
    with open(path, "wb") as file:
        maker = str(measure.TOP / "bench/elf_documents.py")
        subprocess.run([sys.executable, maker, name, str(share)], stdout=file, check=True)
    found = measure.best([[hold]] + [[program, "elf"] for program in programs], path, measure.RUNS, piped=True)
    return found, pathlib.Path(path).stat().st_size


def tell(name, program, run, floor, size):
    print(f"{name:10}{size} bytes: {run.seconds:.3f} s, hold {floor.seconds:.3f} s, ratio {run.seconds / floor.seconds:.2f}", end="")
    print(f"; processor {run.processor:.3f} s, hold {floor.processor:.3f} s", end="")
    print(f"; peak beyond the input {(run.peak - size) / 1048576:.1f} MiB  {program}", flush=True)
    if run.status or run.told:
        print(f"{'':10}status {run.status}, {run.told.decode().strip()}")


def main():
    program = sys.argv[1] if len(sys.argv) > 1 else measure.PROGRAM
    if "elf" not in measure.words(program):
        print("the program has no word `elf`")
        return
    programs = [program, *measure.others()]
    with tempfile.TemporaryDirectory() as folder:
        hold = measure.hold(folder)
        for name in sys.argv[2:] or DOCUMENTS:
            (floor, *runs), size = measured(programs, hold, folder, name, 1)
            for other, run in zip(programs, runs):
                tell(name, other, run, floor, size)
            for other, run in zip(programs[1:], runs[1:]):
                print(f"{'':10}armcaps against {other}: ratio {runs[0].seconds / run.seconds:.2f}", end="")
                print(f", peak {(runs[0].peak - run.peak) / 1048576:+.1f} MiB", end=", ")
                print(measure.compared([program, "elf"], [other, "elf"], f"{folder}/input"), flush=True)
            (half_floor, half, *_), _ = measured(programs, hold, folder, name, 2)
            grown = (runs[0].processor - floor.processor) / (half.processor - half_floor.processor)
            print(f"{'':10}beyond hold, all against half of the entries or sections: {grown:.2f}", flush=True)


if __name__ == "__main__":
    main()
