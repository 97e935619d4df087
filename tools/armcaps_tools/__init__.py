"""What the tools share. Reports are read by the package `armcaps`: in python/ here, and beside this one where the tools
are installed."""

import pathlib
import sys

PACKAGE = pathlib.Path(__file__).resolve().parent.parent.parent / "python"

if (PACKAGE / "armcaps").is_dir():
    sys.path.insert(0, str(PACKAGE))
