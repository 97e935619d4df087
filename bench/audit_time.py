#!/usr/bin/env python3
"""`audit` of patched images with large tables of alternatives, against `patch` of the same.

Builds nothing: run `make` first. The documents are those of patch_documents.py; the second image is what `patch` writes.
For each it prints the time of both (the best of some runs each, `patch` with its output piped to cat), the ratio, the
processor time that an entry costs `audit`, and its memory beyond its input, also as a part of the image; then how its
processor time grows from half of the entries to all of them. With --document the document is a file, as a kernel's. It is
no test: it asserts nothing.

usage: bench/audit_time.py [PROGRAM [NAME..]]
       bench/audit_time.py PROGRAM --document FILE
"""
import pathlib
import subprocess
import sys
import tempfile

import measure
from patch_documents import DOCUMENTS


def made(folder, name, count):
    """The document, in a process of its own, so that this one stays small."""
    path = pathlib.Path(folder) / "document"
    with open(path, "wb") as file:
        maker = str(measure.TOP / "bench/patch_documents.py")
        subprocess.run([sys.executable, maker, name, str(count)], stdout=file, check=True)
    return path


def image_of(path):
    """The length of a document's image, from the line that announces it."""
    with open(path, "rb") as file:
        for line in file:
            if line.startswith(b"image "):
                return int(line.split()[1], 0)
    sys.exit(f"audit_time: {path} has no image")


def measured(program, folder, document):
    """The best runs of both, and the length of audit's input."""
    pair = pathlib.Path(folder) / "pair"
    with open(pair, "wb") as file, open(document, "rb") as given:
        subprocess.run(["cat", document], stdout=file, check=True)
        subprocess.run([program, "patch"], stdin=given, stdout=file, check=True)
    (patch,) = measure.best([[program, "patch"]], document, measure.RUNS, piped=True)
    (audit,) = measure.best([[program, "audit"]], pair, measure.RUNS, piped=True)
    return patch, audit, pair.stat().st_size


def show(program, folder, name, document, count):
    patch, audit, size = measured(program, folder, document)
    image = image_of(document)
    print(f"{name:14}{count:8} entries, an image of {image} bytes: audit {audit.seconds:.3f} s, ", end="")
    print(f"patch {patch.seconds:.3f} s, ratio {audit.seconds / patch.seconds:.2f}")
    print(f"{'':14}processor {audit.processor:.3f} s, patch {patch.processor:.3f} s, ", end="")
    print(f"{audit.processor / max(count, 1) * 1e9:.0f} ns an entry")
    beyond = audit.peak - size
    part = image / max(beyond, 1)
    print(f"{'':14}peak beyond the input {beyond / 1048576:.1f} MiB, 1/{part:.0f} of the image", flush=True)
    if audit.status or audit.told:
        print(f"{'':14}status {audit.status}, {audit.told.decode().strip()}")
    return audit


def main():
    program, names = (sys.argv[1:2] or [measure.PROGRAM])[0], sys.argv[2:]
    if "audit" not in measure.words(program):
        print("the program has no word `audit`")
        return
    with tempfile.TemporaryDirectory() as folder:
        if names[:1] == ["--document"]:
            show(program, folder, "document", names[1], 0)
            return
        for name in names or DOCUMENTS:
            count = DOCUMENTS[name][2]
            whole = show(program, folder, name, made(folder, name, count), count)
            if count > 100_000:
                half = measured(program, folder, made(folder, name, count // 2))[1]
                grown = whole.processor / half.processor
                print(f"{'':14}{count} entries against {count // 2}: {grown:.2f}", flush=True)


if __name__ == "__main__":
    main()
