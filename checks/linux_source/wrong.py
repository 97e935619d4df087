"""Wrong kernels: one change each in the kernel's own code, which the comparison has to see."""

# what is wrong, the file, the kernel's text (one of these stands in it), and what is put in its place
CHANGES = [
    ("the greater value is kept under Lower", "cpufeature.c", ["ret = min(new, cur);"], "ret = max(new, cur);"),
    ("an Exact field that differs keeps its value", "cpufeature.c", ["ret = ftrp->safe_val;"], "ret = cur;"),
    ("secondary cores change no system value", "cpufeature.c", ["update_cpu_ftr_reg(regp, val);"], ";"),
    (
        "what varies is compared in all bits",
        "cpufeature.c",
        ["if ((boot & regp->strict_mask) == (val & regp->strict_mask))"],
        "if (boot == val)",
    ),
    (
        "a late core may lack what the system has",
        "cpufeature.c",
        ["if (!cpu_has_cap && !cpucap_late_cpu_optional(caps))"],
        "if (0)",
    ),
    (
        "a late core may have what the system lacks",
        "cpufeature.c",
        ["if (cpu_has_cap && !cpucap_late_cpu_permitted(caps))"],
        "if (0)",
    ),
    (
        "a late core may lack hwcaps",
        "cpufeature.c",
        ["if (cpus_have_elf_hwcap(caps) && !caps->matches(caps, SCOPE_LOCAL_CPU))"],
        "if (0)",
    ),
    ("no conflict panics", "cpufeature.c", ["if (cpucap_panic_on_conflict(caps))"], "if (0)"),
    (
        "secondary cores' errata are not found",
        "cpufeature.c",
        ["update_cpu_capabilities(SCOPE_LOCAL_CPU);\n\telse"],
        ";\n\telse",
    ),
    (
        "the system's features are those of the boot core",
        "cpufeature.c",
        ["update_cpu_capabilities(SCOPE_SYSTEM);"],
        "update_cpu_capabilities(0);",
    ),
    ("ID_AA64MMFR3_EL1's place is not emulated", "cpufeature.c", ["(sys_reg_CRm(id) <= 7)"], "(sys_reg_CRm(id) <= 6)"),
    ("MPIDR_EL1 is read as 0", "cpufeature.c", ["*valp = SYS_MPIDR_SAFE_VAL;"], "*valp = 0;"),
    ("an unsafe override is taken", "cpufeature.c", ["if (ftr_ovr != tmp) {"], "if (0) {"),
    ("hidden fields are shown as they are", "cpufeature.c", ["if (ftrp->visible)"], "if (1)"),
    (
        "vector lengths of late cores are not looked at",
        "cpufeature.c",
        ["if (len < safe_len || vec_verify_vq_map(ARM64_VEC_SVE))", "if (vec_verify_vq_map(ARM64_VEC_SVE))"],
        "if (0)",
    ),
    (
        "a mismatched cache type is not found",
        "cpu_errata.c",
        ["return (ctr_real != sys) && (ctr_raw != sys);"],
        "return false;",
    ),
    (
        "arm64.nopauth leaves APA",
        "idreg-override.c",
        ["id_aa64isar1.api=0 id_aa64isar1.apa=0"],
        "id_aa64isar1.api=0",
    ),
    (
        "overrides are not marked",
        "idreg-override.c",
        ["regs[i]->override->mask |= mask;", "override->mask |= mask;"],
        ";",
    ),
]


def changes(texts):
    """Each wrong kernel's name and what makes it, for the kernel's files as they are."""
    for name, file, olds, new in CHANGES:
        old = next((old for old in olds if old in texts[file]), None)
        if old is None:
            raise SystemExit(f"wrong kernel, {name}: the text is not in {file}")
        yield name, lambda this, text, file=file, old=old, new=new: text.replace(old, new) if this == file else text
