"""What the binutils for arm64 say of a kernel's file."""

import itertools
import re
import subprocess

from .packages import CROSS, run

LINE = re.compile(r"^\s*([0-9a-f]+):\t([0-9a-f]{8}) *\t?(.*)$")
# readelf's line of a section: its type, address, offset, size, the size of an entry, and the flags
SECTION = re.compile(
    r"^\s*\[\s*\d+\]\s+\S+\s+\S+\s+([0-9a-f]+)\s+[0-9a-f]+\s+([0-9a-f]+)\s+\S+\s+([WAXMSILOGTCxop]*)\s"
)


def strip(path, into, option):
    run(CROSS + "strip", option, "-o", into, path)


def headers(path):
    """What readelf reads of a file's headers; it has to read them without a warning."""
    done = subprocess.run(
        [CROSS + "readelf", "-h", "-S", "-l", "-W", str(path)], capture_output=True, text=True, check=True
    )
    return done.stdout + done.stderr


def executable(path):
    """The addresses of the sections that hold instructions."""
    told = run(CROSS + "readelf", "-S", "-W", path, text=True)
    found = [match.groups() for match in map(SECTION.match, told.splitlines()) if match]
    return [(int(begin, 16), int(begin, 16) + int(size, 16)) for begin, size, flags in found if "X" in flags]


def disassembly(*words):
    """Each word that objdump shows: its address, the word, and what it is."""
    command = [CROSS + "objdump", *map(str, words)]
    with subprocess.Popen(command, stdout=subprocess.PIPE, text=True, errors="replace") as process:
        for line in process.stdout:
            match = LINE.match(line)
            if match:
                yield int(match[1], 16), match[2], " ".join(match[3].split())
    if process.returncode:
        raise subprocess.CalledProcessError(process.returncode, command)


def differing_words(before, after):
    """The words that objdump shows otherwise in two files: the address, and what each shows."""
    found = []
    nothing = (None, "", "")
    for one, other in itertools.zip_longest(disassembly("-d", before), disassembly("-d", after), fillvalue=nothing):
        if one[1] != other[1] or one[0] != other[0]:
            found.append((one[0], one[2], other[2]))
    return found


def flat_words(path, places):
    """What objdump shows at some places of an image, counted from its first byte."""
    found = {}
    span = [f"--start-address={min(places):#x}", f"--stop-address={max(places) + 4:#x}"]
    for address, _, told in disassembly("-D", "-b", "binary", "-m", "aarch64", *span, path):
        if address in places:
            found[address] = told.partition(" //")[0]
    return found
