"""Writes what came out into docs/AGAINST-LINUX.md."""

from real_kernel.page import replace, table


def write(results):
    replace("linux-source", "\n".join(paragraphs(results)))


def rows_of(results):
    """The fields whose rows differ, in the order of the first kernel that has them."""
    return list(dict.fromkeys(name for result in results.values() for name in result["rows"]))


def paragraphs(results):
    """The paragraphs and the table of classes."""
    for version, result in results.items():
        unknown = sum(count for name, count in result["classes"].items() if name.startswith("unknown"))
        seen = [count for count in result["wrong"].values() if count]
        yield (
            f"{result['release']}: {result['machines']:,} random machines, {result['reads']:,} reads by `armcaps mrs`; "
            f"{unknown} differences without a class.\n"
            f"{len(seen)} of {len(result['wrong'])} wrong kernels were seen, each within {max(seen)} machines.\n"
        )
    names = sorted({name for result in results.values() for name in result["classes"]})
    names = [name for name in names if not name.startswith("unknown")]
    head = ["class of difference", *(f"machines with it, of {version}" for version in results)]
    rows = [[name, *(f"{result['classes'].get(name, 0):,}" for result in results.values())] for name in names]
    yield table(head, rows)
    yield "Fields whose row the kernels have otherwise, with what they have (FIELDS.md has ours):\n"
    rows = [[name, *(result["rows"].get(name, "as here") for result in results.values())] for name in rows_of(results)]
    yield table(["field", *results], rows)
    yield "The wrong kernels, one change in the kernel's own code each, and within how many machines each was seen:\n"
    wrong = list(next(iter(results.values()))["wrong"])
    rows = [[name, *(result["wrong"][name] for result in results.values())] for name in wrong]
    yield table(["wrong kernel", *results], rows)
