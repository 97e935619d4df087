"""armcaps: what an arm64 machine of unequal cores may use, by the proved library.

`run` is the proved call as it is: words and bytes in, status, output and line out. The others read its output into
objects; that reading is tested, not proved.

>>> found = armcaps.report(open("board.txt", "rb").read())
>>> found.cores[2].state, found.cores[2].cause
('parked', 'cap 7 HAS_LSE_ATOMICS')
"""

from ._calls import Error, NotFound, Result, audit, elf, jump, mrs, patch, pool, report, run, trace
from .reports import Baseline, Core, Report, Step, Unreadable, read_pool, read_report, read_trace

__all__ = [
    "Baseline",
    "Core",
    "Error",
    "NotFound",
    "Report",
    "Result",
    "Step",
    "Unreadable",
    "audit",
    "elf",
    "jump",
    "mrs",
    "patch",
    "pool",
    "read_pool",
    "read_report",
    "read_trace",
    "report",
    "run",
    "trace",
]
