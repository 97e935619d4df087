"""What a new user gives the page by mistake: it says what to do, keeps the text, and goes on."""

import contextlib
import pathlib
import tempfile

from . import drawn
from .documents import TOP

LATE = TOP / "examples/late-core.txt"
TEXT = "document.getElementById('text').value"


class Inputs:
    """Files and texts that are none, wants of memory, and Stop."""

    def __init__(self, page):
        self.page = page
        self.folder = None

    def tried(self):
        """All of them, each begun from a good text."""
        cases = [
            self.dump, self.carriage_returns, self.empty, self.longest, self.too_long, self.binary, self.kernel,
            self.other_length, self.no_text, self.dropped, self.edit, self.command_line, self.memory, self.stopped,
            self.link,
        ]
        with tempfile.TemporaryDirectory() as folder:
            self.folder = pathlib.Path(folder)
            for case in cases:
                self.page.put(LATE.read_bytes())
                try:
                    case()
                except drawn.Differs as difference:
                    raise drawn.Differs(f"{case.__name__}: {difference}") from None
                self.goes_on()
        return f"{len(cases)} inputs of a new user: {', '.join(case.__name__.replace('_', ' ') for case in cases)}"

    def goes_on(self):
        self.page.put(LATE.read_bytes())
        drawn.same("the page goes on", self.page.summary().split(";")[0], "3 of 4 cores admitted, 1 parked")

    def file(self, data):
        path = self.folder / "given"
        path.write_bytes(data)
        return path

    def says(self, what, words):
        told = self.page.ask(f"document.getElementById('{what}').textContent")
        if words not in told:
            raise drawn.Differs(f"{what}: {told!r} does not say {words!r}")

    def keeps(self):
        drawn.same("the text is kept", self.page.ask(TEXT), LATE.read_text(encoding="utf-8"))

    def dump(self):
        self.page.choose(TOP / "examples/dumps/gdb.txt")
        self.says("refusal", "armcaps-dump2text")

    def carriage_returns(self):
        self.page.choose(self.file(LATE.read_bytes().replace(b"\n", b"\r\n")))
        self.says("refusal", "line 1: kind 1 header")
        self.page.act("[...document.querySelectorAll('#refusal button')].at(-1).click()")
        self.says("summary", "3 of 4 cores")

    def empty(self):
        self.page.choose(self.file(b""))
        self.says("refusal", "There is no text")

    def longest(self):
        line = b"# " + b"x" * 97 + b"\n"
        data = LATE.read_bytes().replace(b"\nend\n", b"\n")
        data += line * ((1048576 - len(data) - 4) // len(line))
        data += b"#" * (1048576 - len(data) - 5) + b"\nend\n"
        self.page.choose(self.file(data))
        self.says("summary", "3 of 4 cores")

    def too_long(self):
        self.page.choose(self.file(LATE.read_bytes() + b"# more\n" * 200000), NOTED)
        self.says("file-note", "a machine text at most 1048576")
        self.keeps()

    def binary(self):
        self.page.choose(self.file(bytes(range(256)) * 8), NOTED)
        self.says("file-note", "is no text")
        self.keeps()

    def kernel(self):
        """A kernel of 100 MB without its text, and then with it."""
        kernel = self.folder / "kernel.img"
        with open(kernel, "wb") as file:
            file.write(bytes(1 << 16))
            file.truncate(100000000)
        self.page.choose(kernel, NOTED)
        self.says("file-note", "image 100000000")
        self.keeps()
        self.page.put(LATE.read_bytes().replace(b"\nend\n", b"\nimage 100000000\n"))
        self.says("image-note", "names an image of 100000000 bytes")
        self.page.choose(kernel)
        self.page.ask("void document.getElementById('patch').click()")
        self.page.wait("document.body.dataset.patched === String(state.turn)")
        self.says("patch-answer", "100000000 bytes, 0 words")

    def other_length(self):
        """An image of another length than the text says."""
        self.page.put(LATE.read_bytes().replace(b"\nend\n", b"\nimage 4096\n"))
        self.page.choose(self.file(bytes(4095)), NOTED)
        self.says("file-note", "names an image of 4096")
        self.page.choose(self.file(LATE.read_bytes().replace(b"\nend\n", b"\nimage 4096\n") + bytes(5000)))
        self.says("refusal", "trailing bytes: 904")

    def no_text(self):
        """A text with bytes that are none."""
        self.page.choose(self.file(LATE.read_bytes().replace(b"\n# neo", b"\n# \xff\xfe", 1)))
        self.says("summary", "3 of 4 cores")

    def dropped(self):
        """A file that is dropped on the page, and the text before, had back."""
        self.page.put(b"armcaps 1\n# a text of one's own\nend\n")
        name = "[...DATA.examples].find((one) => one.name === 'hotplug')"
        drop = f"const data = new DataTransfer(); data.items.add(new File([{name}.text], 'hotplug.txt'));"
        fire = "document.dispatchEvent(new DragEvent('drop', { dataTransfer: data, bubbles: true }))"
        self.page.act(f"(() => {{ {drop} {fire}; }})()")
        self.says("summary", "3 of 4 cores admitted, 1 parked")
        self.page.act("document.getElementById('back').click()")
        self.says("refusal", "line 3")

    def edit(self):
        """A fault while typing: what is drawn is kept, in grey, until the text is right again."""
        with self.typed(".replace('boot 0', 'boot x')"):
            self.says("refusal", "kind 7 number")
            self.says("summary", "of the text before")
            drawn.same("cards", self.page.ask("document.querySelectorAll('#cores .card').length"), 4)
            drawn.same("stale", self.page.ask("document.body.classList.contains('stale')"), True)
        self.says("summary", "3 of 4 cores")
        drawn.same("stale", self.page.ask("document.body.classList.contains('stale')"), False)

    @contextlib.contextmanager
    def typed(self, change):
        """Another text as it is typed, and then the first one again."""
        before = self.page.ask(TEXT)
        typing = "document.getElementById('text').dispatchEvent(new Event('input'))"
        self.page.act(f"({TEXT} = {TEXT}{change}, {typing})")
        yield
        self.page.act(f"({TEXT} = {before!r}, {typing})")

    def command_line(self):
        """A command line to try, which leaves the text as it is."""
        field = "document.getElementById('cmdline')"
        self.page.act(f"({field}.value = 'id_aa64isar0.atomic=0', {field}.dispatchEvent(new Event('input')))")
        self.says("summary", "3 of 4 cores admitted, 1 parked")
        drawn.same("cause", self.page.ask("document.querySelector('.card.parked').dataset.cause"), "cap 11 HAS_DCPOP")
        self.keeps()

    def memory(self):
        """A run that the browser has no memory for."""
        status, out, err = self.page.answer("engine.run('report', [{ zeros: 4200000000 }])")
        drawn.same("want of memory", (status in (6, None), out), (True, b""))
        if "memory" not in err:
            raise drawn.Differs(f"want of memory: {err!r}")

    def stopped(self):
        """Stop during a second of runs, one after the other."""
        runs = "Array.from({ length: 60 }, () => engine.run('demo 1 64', []))"
        self.page.ask("void (window.ended = undefined)")
        self.page.ask(f"void {runs}.at(-1).then((answer) => {{ window.ended = answer.err; }})")
        self.page.ask("void document.getElementById('stop').removeAttribute('disabled')")
        self.page.ask("void document.getElementById('stop').click()")
        self.page.wait("window.ended !== undefined")
        drawn.same("stopped", self.page.ask("window.ended"), "stopped")

    def link(self):
        """A link that holds the text, opened anew."""
        self.page.put((TOP / "examples/panic.txt").read_bytes())
        self.page.ask("makeLink()")
        address = self.page.ask("location.href")
        self.page.browser.open("about:blank")
        self.page.browser.open(address)
        self.page.wait("Number(document.body.dataset.shown ?? 0) > 0")
        self.says("summary", "A kernel would panic when core 1 comes")
        self.page.ask("document.getElementById('quiet').click()")


NOTED = "!document.getElementById('file-note').hidden"
