"""What the program says of a machine text: the system's words, and which cores are there when it is settled."""

import os
import pathlib
import shutil
import subprocess

from . import linux, text

BUILT = pathlib.Path(__file__).resolve().parent.parent.parent / "crates/armcaps/out/armcaps"


class Stops(text.Unreadable):
    """A text whose machine stops, so that there is no report."""


def program():
    """The program: $ARMCAPS, else the one on the path, else the one that this repository built."""
    found = os.environ.get("ARMCAPS") or shutil.which("armcaps") or (str(BUILT) if BUILT.exists() else None)
    if not found:
        raise text.Unreadable("no program `armcaps`: put it on the path, or name it by $ARMCAPS")
    return found


def report(given):
    """The report of a text."""
    try:
        done = subprocess.run([program(), "report"], input=given, capture_output=True, check=False)
    except OSError as error:
        raise text.Unreadable(f"{program()} does not run: {error.strerror}") from None
    if done.returncode:
        told = done.stderr.decode("utf-8", "replace").strip()
        if done.returncode == 7:
            raise Stops(told)
        raise text.Unreadable(f"`armcaps report` refuses the text: {told or f'status {done.returncode}'}")
    return text.read_report(done.stdout)


def facts(given):
    """What the rules of Linux ask of a machine."""
    machine, told = text.machine(given), report(given)
    words = [{"midr_el1": 0, **core} for core in machine.cores]
    settled = before_finalise(given)
    early = [
        core
        for number, core in enumerate(words)
        if number == machine.boot or number in settled and told.cores[number].state != "parked"
    ]
    return linux.Facts(told.system, words[machine.boot], early)


def before_finalise(given):
    """The cores that are brought up before the system is settled."""
    return steps_before_finalise(given, ("store", "online"))


def begun_before_finalise(given):
    """The cores whose first step comes before the system is settled."""
    return steps_before_finalise(given, ("check", "online"))


def steps_before_finalise(given, words):
    found = set()
    for line in given.decode("utf-8", "replace").splitlines():
        tokens = line.split()
        if tokens[:1] == ["finalise"]:
            break
        if len(tokens) == 2 and tokens[0] in words:
            found.add(text.number(tokens[1]))
    return found


IMAGE_LINES = (b"number", b"given", b"conduit", b"callback", b"table", b"image")


def decided(given):
    """Of each number of a text that stands before an image: its name, and whether it is on."""
    lines = given.split(b"\n")
    bare = [line for line in lines if not line.strip().startswith(IMAGE_LINES)]
    capabilities = set(report(b"\n".join(bare).rstrip(b"\n") + b"\nend\n").capabilities.values())
    found = {}
    for tokens in (line.decode("utf-8", "replace").split() for line in lines):
        if tokens[:1] == ["number"]:
            found[text.number(tokens[1])] = tokens[2], tokens[2] in capabilities
        elif tokens[:1] == ["given"]:
            found[text.number(tokens[1])] = tokens[2], tokens[3] == "on"
    return found
