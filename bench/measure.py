"""What the benchmarks share: a command's time, processor time and peak memory, and the best of some runs of several commands in turn.

A child's peak memory is at least that of the process that starts it, so a benchmark keeps no large bytes itself.
"""
import os
import pathlib
import subprocess
import time

TOP = pathlib.Path(__file__).resolve().parent.parent
PROGRAM = str(TOP / "crates/armcaps/out/armcaps")
RUNS = 7


class Run:
    """The best of some runs of a command."""

    def __init__(self):
        self.seconds = self.processor = float("inf")
        self.peak = 0
        self.status = None
        self.told = b""

    def add(self, command, path, piped):
        """Runs it once on the file; its output goes through a pipe to cat, or nowhere."""
        begin = time.perf_counter()
        with open(path, "rb") as source, open(os.devnull, "wb") as nowhere:
            out, reader = nowhere, None
            if piped:
                reader = subprocess.Popen(["cat"], stdin=subprocess.PIPE, stdout=nowhere)
                out = reader.stdin
            child = subprocess.Popen(command, stdin=source, stdout=out, stderr=subprocess.PIPE)
            if reader:
                reader.stdin.close()
            self.told = child.stderr.read()
            _, status, usage = os.wait4(child.pid, 0)
            child.returncode = 0
            child.stderr.close()
            if reader:
                reader.wait()
        self.status = os.waitstatus_to_exitcode(status)
        self.seconds = min(self.seconds, time.perf_counter() - begin)
        self.processor = min(self.processor, usage.ru_utime + usage.ru_stime)
        self.peak = max(self.peak, usage.ru_maxrss * 1024)


def best(commands, path, runs, piped=False):
    """The best of some runs of each command, made in turn."""
    found = [Run() for _ in commands]
    for _ in range(runs):
        for run, command in zip(found, commands):
            run.add(command, path, piped)
    return found


def words(program):
    """The words that the program knows, as its usage line lists them."""
    usage = subprocess.run([program], stdin=subprocess.DEVNULL, capture_output=True).stderr.decode()
    return [form.split()[0] for form in usage.strip().removeprefix("armcaps: usage: armcaps ").split(" | ")]


def compared(one, other, path):
    """Whether two commands write the same bytes of the file, in words."""
    sums = set()
    for command in (one, other):
        with open(path, "rb") as source:
            child = subprocess.Popen(command, stdin=source, stdout=subprocess.PIPE, stderr=subprocess.DEVNULL)
        sums.add(subprocess.run(["sha256sum"], stdin=child.stdout, capture_output=True, check=True).stdout)
        child.stdout.close()
        child.wait()
    return "the same bytes" if len(sums) == 1 else "OTHER BYTES"


def others():
    """The program that ARMCAPS_OTHER names, to be measured beside armcaps, if it names one."""
    return [os.environ["ARMCAPS_OTHER"]] if "ARMCAPS_OTHER" in os.environ else []


def hold(folder):
    """bench/hold.c, built in that folder."""
    made = f"{folder}/hold"
    subprocess.run([os.environ.get("CC", "cc"), "-O2", "-o", made, str(TOP / "bench/hold.c")], check=True)
    return made


CAT = ["sh", "-c", "cat | cat"]
