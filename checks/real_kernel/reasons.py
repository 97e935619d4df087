"""Why armcaps and a real kernel differ where they do: what is not listed here is what the check looks for."""

HIDDEN_SSBS = "these kernels hide SSBS from programs on cores with the erratum 3194386, which armcaps does not have"
NO_SME = "Debian's kernels are built without SME, and armcaps takes every option as on"
AARCH32 = "the AArch32 ID registers and MVFR (CRm 2 and 3), which armcaps leaves out: MRS.md"
NO_ROW = "fields that Linux has, at their safe values, and this project's profile has no row for"

# (the beginning of a difference, its reason); in the pages each is told once
REASONS = [
    ("HWCAP bit 2 of Linux", "`evtstrm`: the timer's driver sets it by a kernel option, and no register has it"),
    ("ssbs of armcaps", HIDDEN_SSBS),
    ("id_aa64pfr1.ssbs is", HIDDEN_SSBS),
    ("sme of armcaps", NO_SME),
    ("id_aa64pfr1.sme is", NO_SME),
    ("id_aa64smfr0.", NO_SME),
    ("S3_0_C0_C2_", AARCH32),
    ("S3_0_C0_C3_", AARCH32),
    ("id_aa64mmfr0 bits", NO_ROW + " (TGRAN4_2, TGRAN64_2, TGRAN16_2)"),
    ("id_aa64isar1.specres is", "visible to programs in this project's profile, hidden in Linux"),
]

NUMBERS = {
    "SPECTRE_V2": "firmware and Spectre's tables decide it: `--on` where the kernel's log has it",
    "SPECTRE_V3A": "firmware and Spectre's tables decide it: `--on` where the kernel's log has it",
    "HAS_VIRT_HOST_EXTN": "the exception level decides it",
    "UNMAP_KERNEL_AT_EL0": "the command line and KASLR decide it",
    "HAS_CACHE_IDC": "Linux takes CTR_EL0.IDC as 1 where CLIDR_EL1, which armcaps does not read, asks for no cleaning",
    "WORKAROUND_REPEAT_TLBI": "these kernels' list is longer than the profile's: Neoverse N1 and all of Cortex-A76",
    "WORKAROUND_1463225": "Linux asks for EL2 too",
    "SME": NO_SME,
}


CALLBACKS = {
    "kvm_compute_final_ctr_el0": "its kind is final_ctr; Linux's CTR_EL0 has IDC by CLIDR_EL1, as HAS_CACHE_IDC",
}


def reason_of_callback(name):
    return CALLBACKS.get(name, "armcaps does not run it; `keep` leaves the words as they were built")


def reason(difference):
    """Why something differs, or None where nobody knows."""
    return next((why for begin, why in REASONS if difference.startswith(begin)), None)


def reason_of_number(name):
    return NUMBERS.get(name)
