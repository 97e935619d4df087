"""Reports, traces and baselines, read into objects. All are the program's own output (docs/REPORT.md, docs/TRACE.md)."""

import dataclasses
from typing import Callable, Dict, List, Optional


class Unreadable(Exception):
    """Bytes that are not what they are taken for."""


@dataclasses.dataclass
class Core:
    """What became of a core: `boot`, `early`, `late`, `early offline`, `late offline`, `absent`, or `parked` with its
    cause, as `cap 7 HAS_LSE_ATOMICS`."""

    number: int
    state: str
    cause: Optional[str] = None

    def __str__(self) -> str:
        """The state and its cause, as the report has them."""
        return f"{self.state} {self.cause}" if self.cause else self.state

    @property
    def is_admitted(self) -> bool:
        """Whether the core counts for the system: it came up, and may be offline now."""
        return self.state.split(" ")[0] in ("boot", "early", "late")


@dataclasses.dataclass
class Report:
    """What a report says. Words are by the register's name, notes by REG.FIELD, capabilities by number."""

    cores: List[Core] = dataclasses.field(default_factory=list)
    system: Dict[str, int] = dataclasses.field(default_factory=dict)
    user: Dict[str, int] = dataclasses.field(default_factory=dict)
    varies: List[str] = dataclasses.field(default_factory=list)
    notes: Dict[str, str] = dataclasses.field(default_factory=dict)
    capabilities: Dict[int, str] = dataclasses.field(default_factory=dict)
    hwcaps: List[int] = dataclasses.field(default_factory=list)
    flags: List[str] = dataclasses.field(default_factory=list)
    vector_lengths: List[int] = dataclasses.field(default_factory=list)


@dataclasses.dataclass
class Step:
    """A step of bring-up: its event as the text has it, what it was answered, and the system words that it changed."""

    number: int
    event: str
    reply: str
    changed: Dict[str, int] = dataclasses.field(default_factory=dict)


@dataclasses.dataclass
class Baseline:
    """What the machines of a pool can all keep to: how many they are, the words by the register's name, and by REG.FIELD
    the number of the machine that limits the field."""

    machines: int = 0
    system: Dict[str, int] = dataclasses.field(default_factory=dict)
    limits: Dict[str, int] = dataclasses.field(default_factory=dict)


def _read(data: bytes, name: str, take: Callable[[str, str], None]) -> None:
    """Hands each line between the first and the last to `take`: its first word, and the rest."""
    lines = data.decode("utf-8", "replace").splitlines()
    if not lines or lines[0] != f"armcaps {name} 1" or lines[-1] != "end":
        raise Unreadable(f"no {name}: it does not begin with `armcaps {name} 1` and end with `end`")
    for count, line in enumerate(lines[1:-1], 2):
        word, _, rest = line.partition(" ")
        try:
            take(word, rest)
        except (ValueError, IndexError):
            raise Unreadable(f"no {name}: line {count} is `{line}`") from None


def read_report(data: bytes) -> Report:
    """The facts of a report."""
    found = Report()

    def take(word: str, rest: str) -> None:
        first, _, more = rest.partition(" ")
        if word == "core":
            if int(first) != len(found.cores):
                raise ValueError(first)
            state, _, cause = more.partition(" ")
            found.cores.append(Core(int(first), state, cause) if state == "parked" else Core(int(first), more))
        elif word == "reg":
            found.system[first] = int(more, 16)
        elif word == "user":
            found.user[first] = int(more, 16)
        elif word == "varies":
            found.varies.append(rest)
        elif word == "note":
            found.notes[first] = more
        elif word == "cap":
            found.capabilities[int(first)] = more
        elif word in ("hwcap", "hwcap2"):
            found.hwcaps.append(int(rest, 16))
        elif word == "flags":
            found.flags += rest.split()
        elif word == "vl":
            found.vector_lengths.append(int(rest))

    _read(data, "report", take)
    return found


def read_trace(data: bytes) -> List[Step]:
    """The steps of a trace, in their order."""
    steps: List[Step] = []

    def take(word: str, rest: str) -> None:
        if word == "step":
            number, event, more = rest.split(" ", 2)
            if event != "finalise":
                core, _, more = more.partition(" ")
                event = f"{event} {core}"
            steps.append(Step(int(number), event, more))
        elif word == "reg":
            register, _, value = rest.partition(" ")
            steps[-1].changed[register] = int(value, 16)

    _read(data, "trace", take)
    return steps


def read_pool(data: bytes) -> Baseline:
    """The facts of a pool's baseline."""
    found = Baseline()

    def take(word: str, rest: str) -> None:
        first, _, more = rest.partition(" ")
        if word == "machines":
            found.machines = int(rest)
        elif word == "reg":
            found.system[first] = int(more, 16)
        elif word == "limit":
            found.limits[first] = int(more)

    _read(data, "pool", take)
    return found
