"""The calls: `run` as the library has it, and one for each command."""

import dataclasses
import re
from typing import Iterable, Optional, Union

from . import _library
from .reports import Baseline, Report, Step, read_pool, read_report, read_trace


@dataclasses.dataclass(frozen=True)
class Result:
    """What a run came to: its status, its output, and its error line without the line feed."""

    status: int
    output: bytes
    line: str


class Error(Exception):
    """A run that wrote nothing: `status` is the library's (docs/LIBRARY.md), `line` its line; `place` and `kind` are
    there where that line names a line of the text or an entry of a table, `machine` where it names one of a pool."""

    def __init__(self, status: int, line: str):
        super().__init__(line or f"status {status}")
        self.status = status
        self.line = line
        found = re.search(r"(?:line|entry) (\d+): kind (\d+)", line)
        self.place: Optional[int] = int(found.group(1)) if found else None
        self.kind: Optional[int] = int(found.group(2)) if found else None
        machine = re.match(r"armcaps: machine (\d+):", line)
        self.machine: Optional[int] = int(machine.group(1)) if machine else None


class NotFound(Error):
    """`mrs`: the core runs no program, or the word reads no register that is answered."""


def _bytes(text: Union[str, bytes]) -> bytes:
    """A text, or any object that is like bytes, as bytes."""
    if isinstance(text, str):
        return text.encode()
    return text if isinstance(text, bytes) else bytes(memoryview(text))


def run(words: Union[str, bytes], data: Union[str, bytes] = b"") -> Result:
    """Runs a command, as `"mrs 0 0xd5380400"`, over bytes in memory."""
    line, data = _bytes(words), _bytes(data)
    room = len(data) + 65536
    status, output, length, told = _library.call(line, data, room)
    if status == 5:
        status, output, length, told = _library.call(line, data, length)
    return Result(status, output, told.decode("utf-8", "replace").rstrip("\n"))


def _output(words: str, data: bytes) -> bytes:
    came = run(words, data)
    if came.status == 0:
        return came.output
    raise (NotFound if came.status == 9 else Error)(came.status, came.line)


def report(text: Union[str, bytes]) -> Report:
    """What became of each core of a machine text, and what the system has."""
    return read_report(_output("report", _bytes(text)))


def trace(text: Union[str, bytes]) -> "list[Step]":
    """What each step of bring-up came to, and which registers of the system it changed."""
    return read_trace(_output("trace", _bytes(text)))


def mrs(text: Union[str, bytes], core: int, word: int) -> int:
    """What a program on that core reads by the MRS instruction with this word."""
    return int(_output(f"mrs {core} {word:#x}", _bytes(text)).split()[-1], 16)


def patch(text: Union[str, bytes], image: bytes = b"") -> bytes:
    """The kernel image that follows the text (or is given apart), patched for the machine."""
    return _output("patch", _bytes(text) + image)


def elf(text: Union[str, bytes], image: bytes = b"") -> bytes:
    """The kernel's ELF file that follows the text (or is given apart), patched for the machine."""
    return _output("elf", _bytes(text) + image)


def jump(offset: int, count: int, text: Union[str, bytes], image: bytes = b"") -> bytes:
    """The patched image with its jump labels applied, whose table has so many entries at this offset."""
    return _output(f"jump {offset} {count}", _bytes(text) + image)


def audit(text: Union[str, bytes], image: bytes, second: bytes) -> Optional[int]:
    """Whether a second image is the patched one: None where it is, else the place of the first byte that differs."""
    came = run("audit", _bytes(text) + image + second)
    if came.status == 12:
        return int(came.line.split()[-1])
    if came.status == 0:
        return None
    raise Error(came.status, came.line)


def pool(texts: Iterable[Union[str, bytes]]) -> Baseline:
    """What machines, each by its text, can all keep to, and which of them limits each field; at most 64 at a time."""
    return read_pool(_output("pool", b"".join(map(_bytes, texts))))
