"""What all tools have in common as commands: -h, --help and --version, and how they end.

Status 0: done. Status 1: what was given is refused (or, of cmdline-lint, has a hint). Status 2: the words are no use
of the tool, or a file cannot be read or written. No ending leaves a traceback.
"""

import os
import pathlib
import signal
import sys

from . import profile, text

TOP = pathlib.Path(__file__).resolve().parent.parent


class Refused(Exception):
    """What is given is not taken; the message says where, why, and what to do."""


class Misused(Exception):
    """The words of the command are none of its uses."""


def version():
    """The version of armcaps: VERSION stands in the repository's top folder, or beside the installed tools."""
    for folder in (TOP, TOP.parent):
        if (folder / "VERSION").is_file():
            return (folder / "VERSION").read_text(encoding="utf-8").strip()
    return "unknown"


def answer(name, words, usage):
    """Answers -h, --help and --version, which count before `--` alone; whether one of them was there."""
    words = words[: words.index("--")] if "--" in words else words
    if "-h" in words or "--help" in words:
        print(usage.strip("\n"))
    elif "--version" in words:
        print(f"armcaps-{name} {version()}")
    else:
        return False
    return True


def say(name, what):
    if sys.stderr is not None:
        print(f"{name}: {what}", file=sys.stderr, flush=True)


def told(error):
    """An error of the system in words."""
    return f"{error.filename}: {error.strerror}" if error.filename else error.strerror or str(error)


def end(status):
    """Ends here and now: what could not be written is not tried again."""
    os._exit(status)


def streams():
    """Text goes out as UTF-8, and bytes that are no UTF-8 as they came in."""
    signal.signal(signal.SIGPIPE, signal.SIG_DFL)
    if sys.stdout is None:
        raise OSError("standard output is closed")
    sys.stdout.reconfigure(encoding="utf-8", errors="surrogateescape")
    if sys.stderr is not None:
        sys.stderr.reconfigure(encoding="utf-8", errors="backslashreplace")


def run(name, usage, main):
    """Runs a tool: `main` takes the words and answers the status. `usage` is what --help prints."""
    try:
        streams()
        status = 0 if answer(name, sys.argv[1:], usage) else main(sys.argv[1:])
        sys.stdout.flush()
    except Misused as misuse:
        say(name, f"{misuse}; --help says how it is used" if str(misuse) else "wrong words; --help says how it is used")
        status = 2
    except (Refused, text.Unreadable) as refusal:
        say(name, str(refusal))
        status = 1
    except profile.Missing as missing:
        say(name, str(missing))
        status = 2
    except OSError as error:
        say(name, told(error))
        end(2)
    except KeyboardInterrupt:
        end(130)
    sys.exit(status)
