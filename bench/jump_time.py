#!/usr/bin/env python3
"""`jump` on images with large tables of jump labels, against `patch` of the same documents, which passes over them.

Run `make` first. The documents are those of jump_documents.py. For each it prints the time of both with their output
piped to cat (the best of some runs each, made in turn), the ratio, the processor time that an entry costs, and the
memory beyond the input; then how the processor time beyond `patch` grows from half of the entries to all of them. It is
no test: it asserts nothing.

usage: bench/jump_time.py [PROGRAM [NAME..]]
"""
import pathlib
import subprocess
import sys
import tempfile

import measure
from jump_documents import DOCUMENTS


def measured(program, folder, name, count):
    """The best runs of `jump` and of `patch`, and the length of the input."""
    path = f"{folder}/input"
    # in a process of its own, so that this one stays small
    with open(path, "wb") as file:
        maker = str(measure.TOP / "bench/jump_documents.py")
        subprocess.run([sys.executable, maker, name, str(count)], stdout=file, check=True)
    jump, patch = measure.best([[program, "jump", "0", str(count)], [program, "patch"]], path, measure.RUNS, piped=True)
    return jump, patch, pathlib.Path(path).stat().st_size


def main():
    program = sys.argv[1] if len(sys.argv) > 1 else measure.PROGRAM
    if "jump" not in measure.words(program):
        print("the program has no word `jump`")
        return
    with tempfile.TemporaryDirectory() as folder:
        for name in sys.argv[2:] or DOCUMENTS:
            count = DOCUMENTS[name][2]
            jump, patch, size = measured(program, folder, name, count)
            beyond = jump.processor - patch.processor
            print(f"{name:14}{count:8} entries, {size} bytes: {jump.seconds:.3f} s", end="")
            print(f", patch {patch.seconds:.3f} s, ratio {jump.seconds / patch.seconds:.2f}")
            print(f"{'':14}processor {jump.processor:.3f} s, patch {patch.processor:.3f} s", end="")
            print(f", ratio {jump.processor / patch.processor:.2f}, {beyond / count * 1e9:.0f} ns an entry")
            print(f"{'':14}peak beyond the input {(jump.peak - size) / 1048576:.1f} MiB", end="")
            print(f", of patch {(patch.peak - size) / 1048576:.1f} MiB")
            for run in (jump, patch):
                if run.status or run.told:
                    print(f"{'':14}status {run.status}, {run.told.decode().strip()}")
            half, half_patch, _ = measured(program, folder, name, count // 2)
            grown = beyond / (half.processor - half_patch.processor)
            print(f"{'':14}beyond patch, {count} entries against {count // 2}: {grown:.2f}", flush=True)


if __name__ == "__main__":
    main()
