"""Makes a program of a kernel's own cpufeature.c, cpu_errata.c and idreg-override.c, for the machine that builds it.

The kernel's headers on ID registers and capabilities are taken as they are; every other header that the three files ask
for is an empty one, and kernel.h beside this file stands in its place. Register reads go to an array.
"""

import pathlib
import re
import subprocess

HERE = pathlib.Path(__file__).resolve().parent
SOURCES = ["cpufeature.c", "cpu_errata.c"]
# headers of the kernel that are used as they are
KERNELS = {
    "asm/cpufeature.h": "arch/arm64/include/asm/cpufeature.h",
    "asm/cputype.h": "arch/arm64/include/asm/cputype.h",
    "asm/hwcap.h": "arch/arm64/include/asm/hwcap.h",
    "uapi/asm/hwcap.h": "arch/arm64/include/uapi/asm/hwcap.h",
    "asm/cpu.h": "arch/arm64/include/asm/cpu.h",
    "asm/cpucaps.h": "arch/arm64/include/asm/cpucaps.h",
    "kernels/asm/sysreg.h": "arch/arm64/include/asm/sysreg.h",
}
INCLUDE = re.compile(r'^[ \t]*#[ \t]*include[ \t]+[<"]([^>"]+)[>"]', re.MULTILINE)
FLAGS = "-O1 -w -std=gnu11 -fno-strict-aliasing -D__KERNEL__ -fcommon -fno-pie -no-pie -static".split()


def override_source(source):
    folder = source / "arch/arm64/kernel"
    return next(path for path in (folder / "pi/idreg-override.c", folder / "idreg-override.c") if path.exists())


def functions(path, *names):
    """The text of functions of a file, which begin at a line with their name and end at a `}` of its own line."""
    text = path.read_text()
    form = r"^(?:\w[^\n;]*)?\b{}\([^;{{]*\)[^;{{]*\n\{{\n.*?^\}}\n"
    return "\n".join(re.search(form.format(name), text, re.MULTILINE | re.DOTALL).group() for name in names)


def headers(source, folder):
    """The folder of headers: the kernel's, those that its scripts make, and empty ones for all others."""
    for name, path in KERNELS.items():
        target = folder / name
        target.parent.mkdir(parents=True, exist_ok=True)
        if (source / path).exists():
            target.write_text((source / path).read_text())
    tools, has_own = source / "arch/arm64/tools", (source / KERNELS["asm/cpucaps.h"]).exists()
    numbers = "asm/cpucap-defs.h" if has_own else "asm/cpucaps.h"
    for script, table, name in [
        ("gen-cpucaps.awk", "cpucaps", numbers),
        ("gen-sysreg.awk", "sysreg", "asm/sysreg-defs.h"),
    ]:
        made = subprocess.run(["awk", "-f", tools / script, tools / table], check=True, capture_output=True).stdout
        (folder / name).write_bytes(made)
    (folder / "asm/sysreg.h").write_text('#include "kernels/asm/sysreg.h"\n#include "registers.h"\n')
    asked = set()
    for text in [*(path.read_text() for path in folder.rglob("*.h")), *texts(source).values()]:
        asked |= set(INCLUDE.findall(text))
    for name in asked:
        target = folder / name
        if not target.exists() and name not in ("registers.h", "kernel.h"):
            target.parent.mkdir(parents=True, exist_ok=True)
            target.write_text("")


def texts(source):
    """The text of each file that is the kernel's own."""
    kernel = source / "arch/arm64/kernel"
    paths = {name: kernel / name for name in SOURCES} | {"idreg-override.c": override_source(source)}
    return {name: path.read_text() for name, path in paths.items()}


def program(source, folder, change=lambda name, text: text):
    """The program; `change` makes a wrong kernel of the right one."""
    folder.mkdir(parents=True, exist_ok=True)
    headers(source, folder / "include")
    kernel = source / "arch/arm64/kernel"
    for name, text in texts(source).items():
        (folder / name).write_text(change(name, text))
    stores = functions(kernel / "cpuinfo.c", "__cpuinfo_store_cpu", "cpuinfo_store_cpu", "cpuinfo_store_boot_cpu")
    (folder / "cpuinfo.c").write_text(stores)
    context = functions(source / "arch/arm64/mm/context.c", "get_cpu_asid_bits", "verify_cpu_asid_bits")
    (folder / "context.c").write_text(context)
    if (source / "kernel/params.c").exists():
        kstrto = ["_parse_integer_fixup_radix", "_parse_integer_limit", "_parse_integer", "_kstrtoull", "kstrtoull"]
        parse = functions(source / "lib/kstrtox.c", *kstrto)
        names = functions(source / "kernel/params.c", "dash2underscore", "parameqn", "parameq")
        (folder / "params.c").write_text(parse + names)
    is_new = (source / "arch/arm64/kernel/pi/idreg-override.c").exists()
    files = [HERE / "machine.c", folder / "cpu_errata.c", HERE / "override.c", HERE / "stubs.c"]
    command = ["gcc", *FLAGS, f"-DNEW={int(is_new)}", f"-I{folder / 'include'}", f"-I{HERE}", f"-I{folder}"]
    command += ["-include", HERE / "kernel.h", "-o", folder / "kernel", *files]
    done = subprocess.run([str(part) for part in command], capture_output=True, text=True, check=False)
    if done.returncode:
        raise SystemExit(f"the kernel's code does not build:\n{done.stderr[:2000]}")
    return folder / "kernel"
