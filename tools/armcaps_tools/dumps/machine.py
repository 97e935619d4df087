"""From the cores of all dumps to a machine text."""

import collections

from .. import text
from ..command import Misused, Refused
from . import hints
from .core import WORDS, shown_to_users
from .reader import Dump

CORES = {1: 64, 2: 512}
CMDLINE = 2048


def gather(options, say):
    """The cores of all dumps in order."""
    cores = []
    for name in options.dumps:
        dump = Dump("standard input" if name == "-" else name, options.base, options.format == 2)
        dump.read(text.load(name))
        for remark in dump.remarks():
            say(f"{dump.name}: {remark}")
        one_mpidr(dump, options)
        cores += [dump.cores[number] for number in sorted(dump.cores, key=lambda n: -1 if n is None else n)]
    return cores


def one_mpidr(dump, options):
    """Refuses two cores of one dump with one MPIDR_EL1."""
    seen = {}
    for core in dump.cores.values():
        word = core.words.get("mpidr_el1")
        if word is None or shown_to_users(core) and not options.user_space:
            continue
        if seen.setdefault(word, core) is not core and not options.user_space:
            raise Refused(
                f"{core.places['mpidr_el1']}: the cores {seen[word].label} and {core.label} have one mpidr_el1, "
                f"{word:#x}, which no two cores have: was one core read twice? "
                "Where one stands for another, give each in a file of its own"
            )


class Numbering:
    """The numbers that dumps give their cores, and those that the text has."""

    def __init__(self, cores):
        self.count = len(cores)
        self.by_label = collections.defaultdict(list)
        unlabelled = all(core.label is None for core in cores)
        for number, core in enumerate(cores):
            if unlabelled or core.label is not None:
                self.by_label[number if unlabelled else core.label].append(number)
        self.moved = [] if unlabelled else [
            (number, core) for number, core in enumerate(cores) if core.label is not None and core.label != number
        ]

    def number(self, option, label):
        """The number in the text of the core that an option means by the dump's number."""
        found = self.by_label.get(label, [])
        if not found:
            have = text.spans(sorted(self.by_label)) or "none"
            raise Refused(f"--{option} {label}: no dump has a core {label}; they have {have}")
        if len(found) > 1:
            raise Refused(
                f"--{option} {label}: {len(found)} dumps have a core {label}: give their cores numbers that differ"
            )
        return found[0]

    def remarks(self):
        """How cores were renumbered, in one line where all are."""
        if len(self.moved) > 4:
            first, last = self.moved[0], self.moved[-1]
            yield (
                f"{len(self.moved)} cores are renumbered: core {first[0]} is {first[1].origin}, "
                f".. core {last[0]} is {last[1].origin}"
            )
        else:
            for number, core in self.moved:
                yield f"core {number} is {core.origin}"


def settled(options, cores):
    """The boot core and the late and absent cores, by the numbers of the text."""
    numbering = Numbering(cores)
    boot = 0 if options.boot is None else numbering.number("boot", options.boot)
    late, absent = (
        {numbering.number(option, label) for label in getattr(options, option)} for option in ("late", "absent")
    )
    for option, numbers in (("late", late), ("absent", absent)):
        if boot in numbers:
            raise Refused(f"--{option}: the boot core, {cores[boot].origin}, is up from the beginning")
    if late & absent:
        raise Refused("a core is both --late and --absent")
    return numbering, boot, late, absent


def complete(core, number, options, say):
    """Refuses a core that lacks a register, or holds what Linux shows to programs."""
    if shown_to_users(core) and not options.user_space:
        raise Refused(
            f"core {number} ({core.origin}) holds what Linux shows to user space: "
            "read it in the kernel, or say --user-space"
        )
    missing = [name for name in WORDS if name not in core.words]
    if missing and not options.partial:
        sysfs = hints.of_sysfs(set(core.words))
        raise Refused(
            f"core {number} ({core.origin}) has "
            + (sysfs or f"no {', '.join(missing)}: read them, or say --partial, which takes 0 for them")
        )
    if missing:
        say(f"core {number} ({core.origin}): 0 for {', '.join(missing)}")


def same_mpidr(cores, say):
    """Warns of cores that one dump may have been taken for."""
    found = collections.defaultdict(list)
    for number, core in enumerate(cores):
        if "mpidr_el1" in core.words:
            found[core.words["mpidr_el1"]].append(number)
    for word, numbers in found.items():
        if len(numbers) > 1:
            told = ", ".join(map(str, numbers))
            say(f"cores {told} have one mpidr_el1, {word:#x}: one core stands for the others")


def check(options, cores, say):
    if len(cores) > CORES[options.format]:
        more = "; --format 2 has 512" if options.format == 1 else ""
        raise Refused(f"{len(cores)} cores, and format {options.format} has {CORES[options.format]}{more}")
    line = options.cmdline
    if line is not None and (len(line.encode("utf-8", "surrogateescape")) > CMDLINE or "\n" in line):
        raise Misused("--cmdline has more than 2048 bytes or more than one line")
    for number, core in enumerate(cores):
        complete(core, number, options, say)
    same_mpidr(cores, say)


def written(options, cores, boot, late, absent):
    """The machine text."""
    lines = [f"armcaps {options.format}"]
    for number, core in enumerate(cores):
        origin = "".join(letter if letter.isprintable() else "?" for letter in core.origin)
        lines += [f"# {origin}", f"core {number}"]
        lines += [f"{name} 0x{core.words.get(name, 0):016x}" for name in WORDS]
        if options.format == 2 and "sve_vl" in core.words:
            lines.append(f"sve_vl 0x{core.words['sve_vl']:x}")
    lines.append(f"boot {boot}")
    if options.cmdline is not None:
        lines.append(f"cmdline {options.cmdline}")
    others = [number for number in range(len(cores)) if number != boot and number not in absent]
    lines += [f"online {number}" for number in others if number not in late]
    lines += ["finalise"] + [f"online {number}" for number in others if number in late] + ["end"]
    return "\n".join(lines) + "\n"


def text_of(options, say):
    """The machine text of all dumps; what has to be told goes to `say`."""
    cores = gather(options, say)
    numbering, boot, late, absent = settled(options, cores)
    check(options, cores, say)
    for remark in numbering.remarks():
        say(remark)
    return written(options, cores, boot, late, absent)


