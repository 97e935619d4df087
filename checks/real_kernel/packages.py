"""Debian's kernels for arm64 and what their guests need, from Debian's packages: nothing is installed."""

import os
import pathlib
import re
import subprocess

from .compare import Build

TOP = pathlib.Path(__file__).resolve().parent.parent.parent
CROSS = "aarch64-linux-gnu-"
META = {"6.1": "linux-image-arm64", "6.12": "linux-image-6.12-arm64"}
NEEDED = ["qemu-system-aarch64", CROSS + "gcc", CROSS + "objcopy", CROSS + "nm", "dpkg-deb", "apt-get", "make"]


def run(*command, **named):
    return subprocess.run([str(part) for part in command], check=True, stdout=subprocess.PIPE, **named).stdout


class Apt:
    """A state of apt's own in a folder, for arm64."""

    def __init__(self, folder):
        self.folder = folder
        for name in ("lists/partial", "archives/partial"):
            (folder / name).mkdir(parents=True, exist_ok=True)
        (folder / "status").touch()
        own = run("dpkg", "--print-architecture", text=True).strip()
        told = {"Dir::State": folder, "Dir::State::status": folder / "status", "Dir::Cache": folder}
        told |= {"APT::Architecture": "arm64", "APT::Architectures": f"arm64,{own}", "APT::Sandbox::User": "root"}
        self.options = [part for name, value in told.items() for part in ("-o", f"{name}={value}")]
        run("apt-get", *self.options, "-qq", "update")

    def release(self, meta):
        """The kernel that a package without files stands for, as 6.1.0-50-arm64."""
        told = run("apt-cache", *self.options, "depends", f"{meta}:arm64", text=True)
        return re.search(r"Depends: linux-image-(\S+?)(?::arm64)?$", told, re.MULTILINE).group(1)

    def unpack(self, package, into, *names):
        """Takes files of a package out of it."""
        place = self.folder / "now"
        place.mkdir(exist_ok=True)
        run("apt-get", *self.options, "-qq", "download", f"{package}:arm64", cwd=place)
        (archive,) = place.glob("*.deb")
        tar = subprocess.Popen(["dpkg-deb", "--fsys-tarfile", archive], stdout=subprocess.PIPE)
        run("tar", "-x", "-C", into, "--wildcards", *names, stdin=tar.stdout)
        tar.wait()
        archive.unlink()


def build(out, version):
    """One of Debian's kernels: its image, its symbols and its numbers, made in a folder where they are not yet."""
    folder = out / version
    image, nm = folder / "Image", folder / "kernel.nm"
    if not (image.exists() and nm.exists() and list(folder.rglob("cpucap*.h"))):
        folder.mkdir(parents=True, exist_ok=True)
        apt = Apt(out / "apt")
        release = apt.release(META[version])
        apt.unpack(f"linux-headers-{release}", folder, "*/generated/asm/cpucap*.h")
        apt.unpack(f"linux-image-{release}-dbg", folder, "./usr/lib/debug/boot/vmlinux-*")
        (vmlinux,) = (folder / "usr/lib/debug/boot").glob("vmlinux-*")
        vmlinux.rename(folder / "vmlinux")
        (folder / "release").write_text(release + "\n")
        vmlinux = folder / "vmlinux"
        nm.write_bytes(run(CROSS + "nm", vmlinux))
        removed = [part for name in (".note", ".note.gnu.build-id", ".comment") for part in ("-R", name)]
        run(CROSS + "objcopy", "-O", "binary", *removed, "-S", vmlinux, image)
    (caps,) = folder.rglob("cpucap*.h")
    return Build(version, image, nm, caps)


def release(out, version):
    """The kernel's full name."""
    return "Linux " + (out / version / "release").read_text().strip()


def programs(out):
    """The guest's program in an archive for its first file system, and the bare program."""
    out.mkdir(parents=True, exist_ok=True)
    run(CROSS + "gcc", "-Wall", "-Wextra", "-O2", "-static", "-o", out / "guest", TOP / "checks/real_kernel/guest.c")
    run("make", "-s", "-C", TOP / "tools/idregs", "bare", "FORMAT=2", f"OUT={out.resolve()}")
    (out / "initrd").write_bytes(archive((out / "guest").read_bytes()))
    return out / "initrd", out / "virt.elf"


def archive(program):
    """A cpio archive (newc) with the folders, the console and /init that Linux looks for."""
    directory, device, file = 0o040755, 0o020600, 0o100755
    members = [("dev", directory, (0, 0), b""), ("proc", directory, (0, 0), b""), ("sys", directory, (0, 0), b"")]
    members += [("dev/console", device, (5, 1), b""), ("init", file, (0, 0), program), ("TRAILER!!!", 0, (0, 0), b"")]
    found = b""
    for number, (name, mode, (major, minor), data) in enumerate(members, 1):
        numbers = [number, mode, 0, 0, 1, 0, len(data), 0, 0, major, minor, len(name) + 1, 0]
        found += b"070701" + b"".join(b"%08x" % value for value in numbers) + name.encode() + b"\0"
        found += bytes(-len(found) % 4) + data
        found += bytes(-len(found) % 4)
    return found


def missing():
    """The programs that are not installed."""
    paths = os.environ["PATH"].split(":")
    return [name for name in NEEDED if not any((pathlib.Path(path) / name).exists() for path in paths)]
