#!/usr/bin/env python3
"""Reading an input one byte above the limit of either format, against bench/hold.c and `cat FILE | cat`.

Builds bench/hold.c, which reads all its input and writes it out (a C compiler is wanted), and no other program: run `make`
first. Prints the times (the best of some runs each, made in turn), armcaps's against the others', and the greatest memory
that armcaps and hold held. It is no test: it asserts nothing.

usage: bench/read_limit.py [PROGRAM]
"""
import sys
import tempfile

import measure

INPUTS = [("format 1", b"", 135_266_305), ("format 2", b"armcaps 2\n", 537_919_489)]
PIECE = bytes(1 << 20)


def write(path, begin, length):
    with open(path, "wb") as file:
        file.write(begin)
        left = length - len(begin)
        while left:
            left -= file.write(PIECE[:left])


def main():
    program = sys.argv[1] if len(sys.argv) > 1 else measure.PROGRAM
    for name, begin, length in INPUTS:
        with tempfile.TemporaryDirectory() as folder:
            path = f"{folder}/input"
            write(path, begin, length)
            commands = [[program, "report"], [measure.hold(folder)], measure.CAT]
            ours, hold, cat = measure.best(commands, path, measure.RUNS)
        print(f"{name}         {length} bytes: status {ours.status}, {ours.told.decode().strip()}")
        print(f"armcaps report   {ours.seconds:.3f} s")
        print(f"hold             {hold.seconds:.3f} s, ratio {ours.seconds / hold.seconds:.2f}")
        print(f"cat FILE | cat   {cat.seconds:.3f} s, ratio {ours.seconds / cat.seconds:.2f}")
        for which, run in (("peak memory", ours), ("peak of hold", hold)):
            print(f"{which:17}{run.peak / 1048576:.1f} MiB ({run.peak / length:.3f} times the input)")


if __name__ == "__main__":
    main()
