"""Pictures of the page: as README shows it, and in dark, on a phone and as it prints, to be looked at."""

from armcaps_tools import text

from .documents import TOP

SHOWN = "late-core"
POOL = ("late-core", "a57-a53", "qemu-max", "big-little", "hotplug")
CONFLICT = "[...document.querySelectorAll('#matrix td.limits')][2]"


def shot(page, path, width, **look):
    """A picture of the whole page."""
    page.browser.look(width, 800, **look)
    page.browser.look(width, page.ask("document.documentElement.scrollHeight"), **look)
    page.browser.picture(path)


def quiet_rows_folded(page):
    page.ask("document.getElementById('quiet').checked && document.getElementById('quiet').click()")


def board():
    """Two Neoverse N1, of which one goes and comes back, a Cortex-A72 that lowers fields, and a Cortex-A53 that comes
    late and is parked."""
    cores = {name: text.machine((TOP / f"examples/{name}.txt").read_bytes()).cores for name in (SHOWN, "big-little")}
    n1, a53, a72 = cores[SHOWN][0], cores[SHOWN][2], cores["big-little"][4]
    lines = ["armcaps 2"]
    for number, words in enumerate((n1, n1, a72, a53)):
        lines += [f"core {number}", *(f"{name} {word:#x}" for name, word in words.items())]
    steps = ["online 1", "online 2", "finalise", "online 3", "offline 1", "online 1", "end", ""]
    return "\n".join([*lines, "boot 0", "cmdline id_aa64isar0.aes=1", *steps]).encode()


def of_readme(page, path):
    """The verdict, the timeline and the fields, with one of them explained."""
    page.put(board())
    quiet_rows_folded(page)
    page.browser.call("Emulation.setScrollbarsHidden", hidden=True)
    page.browser.look(1160, 1340, scale=0.8)
    page.ask(f"void {CONFLICT}.dispatchEvent(new Event('mouseover', {{ bubbles: true }}))")
    page.ask("void document.getElementById('verdict').scrollIntoView()")
    page.browser.picture(path)


def all_of(page, folder):
    """Pictures to be looked at: examples in light, some as a pool, and a board in dark, on a phone and as it prints."""
    folder.mkdir(parents=True, exist_ok=True)
    quiet_rows_folded(page)
    for path in sorted((TOP / "examples").glob("*.txt")):
        page.put(path.read_bytes())
        shot(page, folder / f"{path.stem}.png", 1200)
    page.put(b"".join((TOP / f"examples/{name}.txt").read_bytes() for name in POOL))
    shot(page, folder / "pool.png", 1200)
    page.put(board())
    shot(page, folder / "dark.png", 1200, dark=True)
    shot(page, folder / "phone.png", 390)
    shot(page, folder / "print.png", 800, media="print")
