"""What the tests of the tools share: where things are, and how a tool and the program are run. tools/check names the
program by $ARMCAPS."""

import os
import pathlib
import subprocess
import sys

TOP = pathlib.Path(__file__).resolve().parent.parent.parent
sys.path.insert(0, str(TOP / "tools"))
PROGRAM = os.environ.get("ARMCAPS") or str(TOP / "crates/armcaps/out/armcaps")


def run(*command, given=None, **more):
    return subprocess.run(
        [str(part) for part in command], input=given, capture_output=True, check=False, cwd=TOP, **more
    )


def tool(name, *arguments, given=None, **more):
    return run(TOP / "tools" / name, *arguments, given=given, **more)


def report(given):
    return run(PROGRAM, "report", given=given).stdout
