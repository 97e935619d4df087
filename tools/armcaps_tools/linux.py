"""What Linux decides by the registers of a machine beyond the capabilities of armcaps, and what it asks while it boots.

The rules are those of Linux 6.1 to 6.12, arch/arm64/kernel/cpufeature.c and cpu_errata.c; each names the kernel's own
function or list. They are not proved, and stand for a kernel that has all of its options on.
"""

import dataclasses
import typing

from . import profile

# The kernel's names for what armcaps has under another one.
SAME = {"WORKAROUND_DEVICE_LOAD_ACQUIRE": "WORKAROUND_832075"}

# What a kernel asks before it has patched itself: what it means there, and why it has to be off in an image that boots.
STAGES = {
    "ALWAYS_BOOT": "it tells that the boot core's capabilities are settled",
    "ALWAYS_SYSTEM": "it tells that all capabilities are settled: secondary cores would be verified and not detected",
    "HAS_VIRT_HOST_EXTN": "until the kernel has patched this itself, cpu_copy_el2regs writes TPIDR_EL1 to TPIDR_EL2",
    "HAS_VA52": "the first page tables have 48 bits, and __cpu_setup would set TCR_EL1 for 52",
    "HAS_LPA2": "it goes with HAS_VA52",
    "HAS_IRQ_PRIO_MASKING": "the interrupt controller is not set up yet",
    "HAS_GIC_PRIO_MASKING": "the interrupt controller is not set up yet",
    "HAS_GIC_PRIO_RELAXED_SYNC": "the interrupt controller is not set up yet",
    "MISMATCHED_CACHE_TYPE": "read_ctr takes CTR_EL0 from a word that the kernel has not written yet",
}


@dataclasses.dataclass(frozen=True)
class Facts:
    """A machine as the system is settled: the system's words and the registers of the cores that are there by then."""

    system: dict
    boot: dict
    early: list

    def value(self, name):
        """A field of the system, named as `id_aa64isar1.apa`."""
        register, field = name.split(".")
        word = next(register + end for end in ("_el1", "_el0") if register + end in profile.by_name())
        return next(row for row in profile.fields_of(word) if row.name == field).value(self.system[word])


@dataclasses.dataclass(frozen=True)
class Rule:
    """When a number is on, and what the kernel calls that."""

    holds: typing.Callable[[Facts], bool]
    kernel: str


def least(kernel, *tests):
    """A rule that asks for one of some fields to be at least a value."""
    return Rule(lambda facts: any(facts.value(name) >= value for name, value in tests), kernel)


def model(implementer, part):
    return implementer << 24 | 0xF0000 | part << 4


ARM = 0x41
MODELS = {
    "Cortex-A57": model(ARM, 0xD07),
    "Cortex-A72": model(ARM, 0xD08),
    "Cortex-A76": model(ARM, 0xD0B),
    "Cortex-A77": model(ARM, 0xD0D),
    "Cortex-A78": model(ARM, 0xD41),
    "Cortex-A78C": model(ARM, 0xD4B),
    "Cortex-A510": model(ARM, 0xD46),
    "Cortex-A520": model(ARM, 0xD80),
    "Cortex-A710": model(ARM, 0xD47),
    "Cortex-A715": model(ARM, 0xD4D),
    "Cortex-A720": model(ARM, 0xD81),
    "Cortex-A725": model(ARM, 0xD87),
    "Cortex-X1": model(ARM, 0xD44),
    "Cortex-X1C": model(ARM, 0xD4C),
    "Cortex-X2": model(ARM, 0xD48),
    "Cortex-X3": model(ARM, 0xD4E),
    "Cortex-X4": model(ARM, 0xD82),
    "Cortex-X925": model(ARM, 0xD85),
    "Neoverse-N1": model(ARM, 0xD0C),
    "Neoverse-N2": model(ARM, 0xD49),
    "Neoverse-N3": model(ARM, 0xD8E),
    "Neoverse-V1": model(ARM, 0xD40),
    "Neoverse-V2": model(ARM, 0xD4F),
    "Neoverse-V3": model(ARM, 0xD84),
    "Neoverse-V3AE": model(ARM, 0xD83),
    "Cobalt-100": model(0x6D, 0xD49),
    "ThunderX": model(0x43, 0x0A1),
    "ThunderX-81XX": model(0x43, 0x0A2),
    "ThunderX-83XX": model(0x43, 0x0A3),
    "OcteonTX2-98XX": model(0x43, 0x0B1),
    "OcteonTX2-96XX": model(0x43, 0x0B2),
    "OcteonTX2-95XX": model(0x43, 0x0B3),
    "OcteonTX2-95XXN": model(0x43, 0x0B4),
    "OcteonTX2-95XXMM": model(0x43, 0x0B5),
    "OcteonTX2-95XXO": model(0x43, 0x0B6),
    "ThunderX2": model(0x43, 0x0AF),
    "Vulcan": model(0x42, 0x516),
    "Kryo-4XX-Gold": model(0x51, 0x804),
    "Falkor-V1": model(0x51, 0x800),
    "Carmel": model(0x4E, 0x004),
    "Ampere1": model(0xC0, 0xAC3),
    "Ampere1A": model(0xC0, 0xAC4),
}
SSBS = (
    "Cortex-A76 Cortex-A77 Cortex-A78 Cortex-A78C Cortex-A710 Cortex-A715 Cortex-A720 Cortex-A725 Cortex-X1 Cortex-X1C "
    "Cortex-X2 Cortex-X3 Cortex-X4 Cortex-X925 Cobalt-100 Neoverse-N1 Neoverse-N2 Neoverse-N3 Neoverse-V1 Neoverse-V2 "
    "Neoverse-V3 Neoverse-V3AE"
)


# MIDR_EL1 without Variant and Revision
MODEL = 0xFF0FFFF0


def version(midr):
    """Variant and Revision, as 0xVR."""
    return midr >> 16 & 0xF0 | midr & 0xF


def is_affected(midr, spans):
    """Whether a core is of one of the models, each `NAME` or `NAME:LOW-HIGH` with versions as 0xVR in hexadecimal."""
    for span in spans.split():
        name, _, versions = span.partition(":")
        low, _, high = (versions or "00-ff").partition("-")
        if midr & MODEL == MODELS[name] and int(low, 16) <= version(midr) <= int(high, 16):
            return True
    return False


def erratum(kernel, spans, also=lambda core: True):
    """A rule that asks for one early core of some models."""
    return Rule(lambda facts: any(is_affected(core["midr_el1"], spans) and also(core) for core in facts.early), kernel)


def is_mended_2658417(core):
    return version(core["midr_el1"]) == 0x11 and core.get("revidr_el1", 0) >> 25 & 1


def is_falkor_or_kryo(midr):
    return is_affected(midr, "Falkor-V1:00-00") or midr & 0xFF0FF000 == 0x510F2000


def has_lpa2(facts):
    """LPA2 for pages of 4 KiB at both stages: TGRAN4 is 1, and TGRAN4_2, bits 43:40 of its register, is 3 on each."""
    stage2 = all(core.get("id_aa64mmfr0_el1", 0) >> 40 & 15 == 3 for core in facts.early)
    return facts.value("id_aa64mmfr0.tgran4") == 1 and stage2


RULES = {
    "HAS_ADDRESS_AUTH": least(
        "has_address_auth_metacap: APA, API or APA3 of the boot core",
        ("id_aa64isar1.apa", 1),
        ("id_aa64isar1.api", 1),
        ("id_aa64isar2.apa3", 1),
    ),
    "HAS_GENERIC_AUTH": least(
        "has_generic_auth: GPA, GPI or GPA3",
        ("id_aa64isar1.gpa", 1),
        ("id_aa64isar1.gpi", 1),
        ("id_aa64isar2.gpa3", 1),
    ),
    "HAS_ECV": least("ID_AA64MMFR0_EL1.ECV is 1 or more", ("id_aa64mmfr0.ecv", 1)),
    "HAS_CACHE_IDC": least("has_cache_idc: CTR_EL0.IDC (the kernel takes it from CLIDR_EL1 too)", ("ctr.idc", 1)),
    "HAS_CACHE_DIC": least("has_cache_dic: CTR_EL0.DIC", ("ctr.dic", 1)),
    "HAS_NO_FPSIMD": Rule(
        lambda facts: facts.value("id_aa64pfr0.fp") < 0, "has_no_fpsimd: ID_AA64PFR0_EL1.FP is negative"
    ),
    "HAS_32BIT_EL0_DO_NOT_USE": least("ID_AA64PFR0_EL1.EL0 is 2 or more", ("id_aa64pfr0.el0", 2)),
    "HAS_32BIT_EL1": least("ID_AA64PFR0_EL1.EL1 is 2 or more", ("id_aa64pfr0.el1", 2)),
    "SME2": least("ID_AA64PFR1_EL1.SME is 2 or more", ("id_aa64pfr1.sme", 2)),
    "HAS_VA52": least("ID_AA64MMFR0_EL1.TGRAN4 is 1 or more, for pages of 4 KiB", ("id_aa64mmfr0.tgran4", 1)),
    "HAS_LPA2": Rule(has_lpa2, "has_lpa2: TGRAN4 is 1 and TGRAN4_2 is 3, for pages of 4 KiB"),
    "HAS_NO_HW_PREFETCH": erratum("has_no_hw_prefetch: ThunderX to r1p15", "ThunderX:00-1f"),
    "WORKAROUND_1418040": erratum("erratum_1418040_list", "Cortex-A76:00-31 Neoverse-N1:00-31 Kryo-4XX-Gold:ce-ff"),
    "WORKAROUND_1542419": erratum(
        "has_neoverse_n1_erratum_1542419: CTR_EL0.DIC too", "Neoverse-N1", lambda core: core.get("ctr_el0", 0) >> 29 & 1
    ),
    "WORKAROUND_1742098": erratum("broken_aarch32_aes", "Cortex-A57:01-ff Cortex-A72"),
    "WORKAROUND_1902691": erratum("ARM erratum 1902691", "Cortex-A510:00-01"),
    "WORKAROUND_2038923": erratum("ARM erratum 2038923", "Cortex-A510:00-02"),
    "WORKAROUND_2064142": erratum("ARM erratum 2064142", "Cortex-A510:00-02"),
    "WORKAROUND_2077057": erratum("ARM erratum 2077057", "Cortex-A510:00-02"),
    "WORKAROUND_2645198": erratum("ARM erratum 2645198", "Cortex-A715"),
    "WORKAROUND_2658417": erratum(
        "ARM erratum 2658417: not r1p1 with REVIDR bit 25",
        "Cortex-A510:00-11",
        lambda core: not is_mended_2658417(core),
    ),
    "WORKAROUND_AMPERE_AC03_CPU_38": erratum("erratum_ac03_cpu_38_list", "Ampere1 Ampere1A"),
    "WORKAROUND_CAVIUM_23154": erratum(
        "cavium_erratum_23154_cpus",
        "ThunderX ThunderX-81XX ThunderX-83XX OcteonTX2-98XX OcteonTX2-96XX OcteonTX2-95XX OcteonTX2-95XXN "
        "OcteonTX2-95XXMM OcteonTX2-95XXO",
    ),
    "WORKAROUND_CAVIUM_27456": erratum("cavium_erratum_27456_cpus", "ThunderX:00-11 ThunderX-81XX:00-00"),
    "WORKAROUND_CAVIUM_30115": erratum(
        "cavium_erratum_30115_cpus", "ThunderX:00-12 ThunderX-81XX:00-02 ThunderX-83XX:00-00"
    ),
    "WORKAROUND_CAVIUM_TX2_219_PRFM": erratum("tx2_family_cpus", "Vulcan ThunderX2"),
    "WORKAROUND_NVIDIA_CARMEL_CNP": erratum("NVIDIA Carmel CNP erratum", "Carmel"),
    "WORKAROUND_QCOM_FALKOR_E1003": Rule(
        lambda facts: any(is_falkor_or_kryo(core["midr_el1"]) for core in facts.early),
        "qcom_erratum_1003_list: Falkor r0p0, and all of Kryo",
    ),
    "WORKAROUND_SPECULATIVE_SSBS": erratum("erratum_spec_ssbs_list", SSBS),
    "WORKAROUND_SPECULATIVE_UNPRIV_LOAD": erratum("erratum_spec_unpriv_load_list", "Cortex-A510 Cortex-A520:00-01"),
    "WORKAROUND_TSB_FLUSH_FAILURE": erratum("tsb_flush_fail_cpus", "Neoverse-N2 Cortex-A710 Cobalt-100"),
}
