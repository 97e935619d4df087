"""Writes the page that has all of which the program's own theorem wants to be believed, in an order in which it can be
read from top to bottom.
"""

import re

ROOT = ("armcaps_top", "Run", "Promises")
# the subjects of the page: the title, what it is about, and the crates and files of its definitions
SUBJECTS = (
    ("A run", "What is promised of one call, whatever its words and its input are.", (
        "armcaps_top/Run", "armcaps_top/Answer")),
    ("How a run ends", "The endings, their statuses and lines, and what the streams gave and got.", (
        "armcaps_top/Statuses", "armcaps_top/ErrorLines", "armcaps_io")),
    ("Commands", "What the words ask for, and what each command writes.", (
        "armcaps_top", "armcaps_mrs", "armcaps_report")),
    ("Input", "What text the bytes of an input are, and what it says.", (
        "armcaps_text", "armcaps_lex", "armcaps_cmdline")),
    ("Cores", "How cores come up, step by step, which of them are admitted, and why others are parked.", (
        "armcaps_board", "armcaps_boot")),
    ("Registers", "What a register's fields are, and the one value that all admitted cores keep of each.", (
        "armcaps_sanit", "armcaps_tables", "armcaps_rule", "armcaps_bits", "armcaps_enc")),
    ("Capabilities and errata", "What a core and a system have, and when a core conflicts.", (
        "armcaps_caps", "armcaps_errata", "armcaps_midr")),
    ("Users", "What programs are told.", ("armcaps_hwcap",)),
    ("Images", "What a patched image is.", (
        "armcaps_alt", "armcaps_image", "armcaps_insn", "armcaps_patch", "armcaps_elf", "armcaps_jump")),
    ("Pools", "What many machines have in common, and which of them holds each field down.", ("armcaps_baseline",)),
    ("A second judge", "Whether an image is the patched one.", ("armcaps_pool",)),
    ("Machines from a number", "What `demo` works on, by its words alone.", (
        "armcaps_generate", "armcaps_text/Generator")),
    ("Others", "Definitions of crates that have no place above.", ()),
)
# tables: their lines are read beside the manual or Linux, on a page of their own
TABLES = {
    ("armcaps_tables", "Rows"): "docs/FIELDS.md",
    ("armcaps_tables", "FieldNames"): "docs/FIELDS.md",
    ("armcaps_caps", "Rows"): "docs/CAPABILITIES.md",
    ("armcaps_hwcap", "Rows"): "docs/HWCAPS.md",
    ("armcaps_errata", "Errata"): "docs/CAPABILITIES.md",
}
HEAD = """<!-- Written by tools/definitions from the contracts and definitions of the crates. Do not edit. -->
# The theorem

A run of `armcaps` ends. If its status is 0, no step stops a machine that the input describes, and what was written
is exactly what the command makes of the input, and nothing else: registers, capabilities, hwcaps,
vector lengths and patched words as they are defined below, for every order in which the cores come up. Each admitted
core has every system feature that is enabled, and each workaround that such a core needs is enabled. Any other status
says why nothing was written, or that a stream failed, or that there was no memory. Then the error stream got the line
that says so, or a first part of it if that stream failed itself. The checker has proved this of
`armcaps_top::run` ([its contract](../crates/armcaps_top/src/program.rt)), which cites the record `Promises`. It speaks of bytes if the source tells its bytes and
the sink what it holds, as those in memory do. [README](../README.md#tested-and-trusted) says what is proved over real streams.

This page has all that you have to believe of that: `Promises`, and each definition that it rests on, as it stands in
crates/NAME/specs, with the words above it. A name is explained after its first use, in the order of the first use
within a subject. It is {definitions} definitions in {lines} lines without comments and blank lines; {tabled} more are
lines of tables, in {rows} lines. Read those beside the manual and Linux as [fields](FIELDS.md), [capabilities](CAPABILITIES.md)
and [hwcaps](HWCAPS.md). Functions compute; relations and records, whose names begin with a capital letter, say what holds.
`abbrev` and `unfoldable` only tell the checker when to look inside, `pub` lets other files name it; words that are
not here are of the toolchain's standard library. [One statement](ARCHITECTURE.md#one-statement-from-the-top-to-the-bottom)
is followed from the top to the bottom in ARCHITECTURE.md.

"""


def lines_of(definition):
    """The lines of a definition that say something."""
    return [line for line in definition.text.splitlines() if line.strip() and not line.strip().startswith("--")]


def in_order(citations, root):
    """The definitions below one, each once, where it is first named, after the definition that names it."""
    found, waiting = {}, [root]
    while waiting:
        key = waiting.pop(0)
        if key not in found and key in citations.definitions:
            definition = citations.definitions[key]
            found[key] = definition
            text = re.sub(r"--[^\n]*", "", definition.text)
            cited = [citations.home(one) for one in definition.cites]
            waiting += sorted(cited, key=lambda one: (text.find(one[2]), one))
    return found


def subject_of(key):
    """The place of the subject whose files have the definition: a file that is named wins over its crate."""
    for wanted in (f"{key[0]}/{key[1]}", key[0]):
        for place, (_, _, homes) in enumerate(SUBJECTS):
            if wanted in homes:
                return place
    return len(SUBJECTS) - 1


def block(definition):
    """A definition as its file has it, with its comment, and where it stands."""
    comment = definition.comment
    told = f"{comment[0].upper()}{comment[1:]}." if comment else ""
    file = f"../crates/{definition.crate}/specs/{definition.file}.antt"
    where = f"([{definition.crate[8:]}, {definition.file}]({file}))"
    return f"**{definition.name}** {where}. {told}\n\n```text\n{definition.text.strip()}\n```\n\n"


def table(definitions):
    """Lines of tables, by reference."""
    for (crate, file), page in TABLES.items():
        names = [f"`{one.name}`" for one in definitions if (one.crate, one.file) == (crate, file)]
        if names:
            shown = ", ".join(names[:3]) + (f" and {len(names) - 3} more" if len(names) > 3 else "")
            yield f"Lines of tables, crates/{crate}/specs/{file}.antt and {page}: {shown}.\n\n"


def types_of(definitions):
    """The types of the code that definitions name, with their files."""
    found = {}
    for one in definitions:
        for crate, place, name in one.cites:
            kind, *modules = place.split(".")
            if kind == "declared" and "TheVariants" not in modules:
                found[name, crate] = f"crates/{crate}/src/{'/'.join(modules[:-1])}.rt"
    yield "## Types of the code\n\n"
    yield "Enums and structs that definitions name, with their variants and fields where they stand.\n\n"
    for (name, _), path in sorted(found.items()):
        yield f"- `{name}`: {path}\n"


def page(citations):
    every = in_order(citations, ROOT)
    tabled = {key: one for key, one in every.items() if key[:2] in TABLES}
    told = {key: one for key, one in every.items() if key not in tabled}
    counts = {
        "definitions": len(told),
        "lines": sum(len(lines_of(one)) for one in told.values()),
        "tabled": len(tabled),
        "rows": sum(len(lines_of(one)) for one in tabled.values()),
    }
    yield HEAD.format(**counts)
    filled = {subject_of(key) for key in every}
    titles = [title for place, (title, _, _) in enumerate(SUBJECTS) if place in filled] + ["Types of the code"]
    yield "".join(f"- [{title}](#{title.lower().replace(' ', '-')})\n" for title in titles) + "\n"
    for place, (title, about, _) in enumerate(SUBJECTS):
        here = [one for key, one in told.items() if subject_of(key) == place]
        rows = [one for key, one in tabled.items() if subject_of(key) == place]
        if here or rows:
            yield f"## {title}\n\n{about}\n\n"
            yield from map(block, here)
            yield from table(rows)
    yield from types_of(told.values())
