"""Files that tell of processors and hold no dump of their ID registers, with what is missing and where to go on."""

import re

ON = "read the 17 registers on each core in the kernel, as tools/idregs does (docs/FROM-A-BOARD.md)"
KNOWN = [
    (
        r"^CPU (?:implementer|part)\s*:",
        "is /proc/cpuinfo: it has the parts of MIDR_EL1 and the hwcaps of the system, and no ID register",
    ),
    (
        r"SANITY CHECK: Unexpected variation in SYS_",
        "has the kernel's lines SANITY CHECK: they name a register where two cores differ, and no other one",
    ),
    (r"\bCPU\d+: Booted secondary processor", "is a kernel's log: it has each core's MIDR_EL1 and no other register"),
    (
        r"^armcaps (?:report|trace) \d",
        "is what armcaps prints of a machine: it has the system's registers, not the cores'",
    ),
    (r"^(?:ID_)?(?:Model name|Architecture|BogoMIPS|Flags):", "is what lscpu prints: it has no ID register"),
]

# a register's name with a mark of one half, as _hi, [63:32] or (low)
HALF = re.compile(
    r"\b(?:sys_)?(?:midr|mpidr|revidr|id_aa64[a-z]+\d|ctr|dczid)(?:_el[01])?"
    r"[ _.]?[\[(<]?(?:hi|lo|high|low|upper|lower|h|l|63[:.-]+32|31[:.-]+0)[\])>]?(?![a-z0-9])",
    re.IGNORECASE,
)
JOINED = "write both halves as one number, the high one first, as id_aa64pfr0_el1 0x0000000000112222"
CLUSTER = re.compile(r"clust(?:er)?|\bcl\d|\bsocket|\bdomain|\bdie\b|\b(?:cpu|core)\s*\d+[.:/]\d", re.IGNORECASE)
HEXADECIMAL = re.compile(
    r"\b(?:cpu|core|processor)[\s#:_=.]*(?:0x[0-9a-f]+|[0-9]*[a-f][0-9a-f]*)(?![a-z0-9])", re.IGNORECASE
)


def hint(text):
    """What a text without a whole core is, as far as its form tells, and where to go on; or None."""
    for form, what in KNOWN:
        if re.search(form, text, re.MULTILINE):
            return f"{what}: {ON}"
    if HALF.search(text):
        return f"has registers in halves of 32 bits, which are not put together: {JOINED}"
    return None


def of_headings(lines):
    """What lines that are no heading may be, and how such a heading is to be written; or None."""
    if any(CLUSTER.search(line) for line in lines):
        return "where each cluster numbers its cores from 0, number them on, as `core 4` for the next cluster's first"
    if any(HEXADECIMAL.search(line) for line in lines):
        return "numbers of cores are decimal, as `core 10` for core 0xa"
    return None


def of_sysfs(names):
    """Where a core has no more than what sysfs shows."""
    if names and names <= {"midr_el1", "revidr_el1"}:
        return f"MIDR_EL1 and REVIDR_EL1 alone, which is what sysfs (regs/identification) has: {ON}"
    return None
