"""The kernel's source, from Debian's package of it."""

import pathlib
import re
import shutil
import subprocess

WANTED = ["arch/arm64", "lib/kstrtox.c", "kernel/params.c"]


def run(*command, **named):
    return subprocess.run([str(part) for part in command], check=True, stdout=subprocess.PIPE, **named).stdout


def source(out, version):
    """The folder of a kernel's source, unpacked where it is not yet, and the package's version."""
    folder = (out / version).resolve()
    tree, release = folder / f"linux-source-{version}", folder / "release"
    if not release.exists():
        folder.mkdir(parents=True, exist_ok=True)
        run("apt-get", "-qq", "-o", "APT::Sandbox::User=root", "download", f"linux-source-{version}", cwd=folder)
        (package,) = folder.glob("linux-source-*.deb")
        run("dpkg-deb", "-x", package, folder)
        names = [f"linux-source-{version}/{name}" for name in WANTED]
        run("tar", "-x", "-f", folder / f"usr/src/linux-source-{version}.tar.xz", "-C", folder, *names)
        told = re.search(r"_([^_]+)_", package.name).group(1)
        package.unlink()
        shutil.rmtree(folder / "usr")
        release.write_text(f"linux-source-{version} {told}\n")
    return tree, release.read_text().strip()
