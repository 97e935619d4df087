"""What `armcaps pool` says of machine texts: the registers that all of their machines can keep to, and which machine
limits each field."""

import re
import subprocess

from armcaps import read_pool

from . import machine, profile, text
from .command import Refused

MOST = 64


class Stops(text.Unreadable):
    """A text whose machine stops at a step."""


def of(given):
    """The baseline of one or more texts, given one after the other. A refusal is told without the program's name."""
    program = machine.program()
    try:
        done = subprocess.run([program, "pool"], input=given, capture_output=True, check=False)
    except OSError as error:
        raise text.Unreadable(f"{program} does not run: {error.strerror}") from None
    if done.returncode:
        told = done.stderr.decode("utf-8", "replace").strip() or f"status {done.returncode}"
        if done.returncode not in (3, 7):
            raise Refused(f"`armcaps pool` failed: {told}")
        raise (Stops if done.returncode == 7 else text.Unreadable)(re.sub("^armcaps: ", "", told))
    found = read_pool(done.stdout)
    if list(found.system) != profile.tracked() or len(found.limits) != len(profile.fields()):
        raise Refused("`armcaps pool` has not a word for each register, or not a limit for each field")
    return found


def text_of(words):
    """A machine text of one core that has these words, so that its system has them too: no command line and no other
    core changes one."""
    registers = "".join(f"{name} {word:#x}\n" for name, word in zip(profile.tracked(), words))
    return f"armcaps 1\ncore 0\n{registers}boot 0\nfinalise\nend\n".encode()


def baseline(machines, told=lambda what: None):
    """The baseline of machines, each told by its words, and for each field the place of the first that limits it.

    A run takes at most 64 texts. So each run but the first begins with the baseline so far, which stands for all
    machines that it was made of; where it limits a field, the machine that did so before does.
    """
    words, limits, taken = None, {}, 0
    while taken < len(machines):
        own = MOST if words is None else MOST - 1
        begin = [] if words is None else [words]
        group = begin + machines[taken : taken + own]
        found = of(b"".join(text_of(each) for each in group))
        for field, place in found.limits.items():
            if words is None or place:
                limits[field] = taken + place - len(begin)
        words, taken = tuple(found.system.values()), min(taken + own, len(machines))
        told(f"{taken} of {len(machines)} machines pooled")
    return words, limits
