"""Writes what came out into docs/AGAINST-LINUX.md, between the marks of each check."""

import collections
import pathlib
import re

from . import reasons

PAGE = pathlib.Path(__file__).resolve().parent.parent.parent / "docs/AGAINST-LINUX.md"


def table(head, rows):
    lines = [head, ["---"] * len(head), *rows]
    return "".join("| " + " | ".join(str(cell) for cell in line) + " |\n" for line in lines)


def replace(check, text):
    """Puts a check's text between its marks."""
    page = PAGE.read_text(encoding="utf-8")
    begin, end = f"<!-- written by checks/{check} -->\n", "<!-- as far as here -->"
    parts = re.compile(re.escape(begin) + ".*?" + re.escape(end), re.DOTALL)
    PAGE.write_text(parts.sub(lambda _: f"{begin}\n{text}\n{end}", page), encoding="utf-8")


def write_real_kernel(results, of_kernels, releases):
    replace("real-kernel", "\n".join(real_kernel(results, releases)))
    replace("real-kernel, elf and jump", "\n".join(paragraph for found in of_kernels for paragraph in files(found)))


def real_kernel(results, releases):
    """The paragraphs and tables."""
    total = lambda name: f"{sum(result[name] for result in results):,}"  # noqa: E731
    count = lambda name: f"{sum(len(result[name]) for result in results):,}"  # noqa: E731
    kept = collections.Counter()
    for result in results:
        kept.update(result["callbacks"])
    boards_count = len({result["board"] for result in results})
    yield f"{' and '.join(releases)} on {boards_count} boards each, four cores a board.\n"
    yield (
        f"- **{total('sites')} words of sites compared**, of which the kernels had changed {total('sites changed')}.\n"
        f"  {sum(kept.values()):,} differ at the sites of callbacks, as listed below, and {count('strange')} others.\n"
        f"- {total('reads compared')} reads of the ID space compared.\n"
        f"- {total('labels')} words of jump labels in the kernels' memory are compared with what `jump` makes of that\n"
        f"  memory, by the keys that the kernels had switched on ({total('labels taken')} are branches): "
        f"{total('labels that differ')} differ.\n"
        f"- **{len(results)} images for a boot**, with {total('boot words')} words changed, were booted: "
        f"{count('new warnings')} warnings\n"
        "  that the original does not give; hwcaps, reads and detected features the same on "
        f"{total('boot same')}; all cores\n  but the first offline and online again on {total('cores back')}.\n"
    )
    for result in (result for result in results if "warned" in result):
        yield (
            f"That this check sees: with Linux {result['kernel']}, the image of a kernel that runs gave "
            f"{result['warned']} warnings\nwhen it was booted on {result['board']}.\n"
        )
    yield from boards(results)
    yield from differences(results)
    yield "The callbacks at whose sites words differ:\n"
    rows = sorted([name, f"{words:,}", reasons.reason_of_callback(name)] for name, words in kept.items())
    yield table(["callback", "words, over all boards", "reason"], rows)


def files(found):
    """What `elf` and `jump` made of one kernel's files."""
    elf, jump = found["elf"], found["jump"]
    told = [
        f"{elf[name]['bytes']:,} bytes, {elf[name]['loaded sections']} loaded sections, format {elf[name]['format']}"
        for name in ("whole", "light", "bare")
    ]
    yield f"Linux {found['kernel']}, **{len(found['strange'])} differences**.\n"
    yield (
        f"- `elf` on vmlinux ({told[0]}), on one without debug information\n"
        f"  ({told[1]}) and on its loaded sections alone\n"
        f"  ({told[2]}): each to the byte what `patch` makes of the image,\n"
        "  all that is not loaded as it was; readelf reads the same headers.\n"
        f"- {elf['words changed']:,} words changed, each in a site of a selected entry, "
        f"of {elf['words of sites']:,} words there,\n"
        f"  in {elf['symbols']:,} symbols; "
        f"objdump shows {elf['words that objdump shows']:,} of them, and an instruction for each."
    )
    yield (
        f"- `jump` on the image with zeros up to `_end` ({jump['padded']:,} bytes): {jump['entries']:,} entries,\n"
        f"  {jump['keys']:,} keys, {jump['keys on']} of them on as it was built; "
        f"{jump['kept']:,} of {jump['places']:,} words are kept.\n"
        f"  With each key switched on in the image objdump shows {jump['branches']:,} words as `b` to the entry's\n"
        f"  target and the others as NOP; with each second key on, {jump['branches of half']:,}.\n"
    )


def boards(results):
    head = ["board", "kernel", "words", "changed by Linux", "differ", "at callbacks", "changed for a boot", "boot"]
    rows = []
    for result in results:
        good = result["boot same"] and result["cores back"] and not result["new warnings"]
        cells = [f"{result['sites']:,}", f"{result['sites changed']:,}", len(result["strange"])]
        cells += [sum(result["callbacks"].values()), f"{result['boot words']:,}"]
        cells.append("as the original" if good else "differs")
        rows.append([result["board"], result["kernel"], *cells])
    yield table(head, rows)


def differences(results):
    """Each reason once, with what differs and on how many boards."""
    found = {}
    for result in results:
        told = [(text, reasons.reason(text)) for text in result["hwcaps"] + result["reads"]]
        told += [(text, reasons.reason_of_number(text.split()[0])) for text in result["numbers"]]
        for text, why in told:
            names = found.setdefault(why or "**no reason is known**", {})
            names.setdefault(short(text), set()).add((result["board"], result["kernel"]))
    rows = []
    for why, names in found.items():
        most = max(len(boards) for boards in names.values())
        rows.append([", ".join(sorted(names)), most, why])
    yield "What differs in hwcaps, reads and numbers, on how many of the boards at most, and why:\n"
    yield table(["what", "boards", "reason"], sorted(rows, key=lambda row: -row[1]))


def short(text):
    """What a difference is of, without its values."""
    name = text.split()[0]
    if name.startswith("S3_0_C0_C"):
        return name[: len("S3_0_C0_C2")] + "_*"
    return name if name != "HWCAP" else " ".join(text.split()[:3])
