/* Functions of the kernel that do something to a core, which has none here; and what they answer where that counts. */
#include <asm/cpu.h>
#include <asm/cpufeature.h>

struct cpuinfo_arm64 cpu_data[512];
char empty_zero_page[4096], vectors[8];
unsigned int compat_elf_hwcap2;
pgd_t swapper_pg_dir[1], idmap_pg_dir[1];
struct bus cpu_subsys;

#define NOTHING(name) int name() { return 0; }
NOTHING(__cpuinfo_store_cpu_32bit)
NOTHING(aarch64_insn_decode_immediate)
NOTHING(aarch64_insn_decode_register)
NOTHING(aarch64_insn_is_mrs)
NOTHING(add_taint)
NOTHING(apply_boot_alternatives)
NOTHING(arch_timer_get_cntfrq)
NOTHING(arm64_get_bp_hardening_vector)
NOTHING(arm64_kernel_unmapped_at_el0)
NOTHING(arm64_skip_faulting_instruction)
NOTHING(compat_user_mode)
NOTHING(cpacr_restore)
NOTHING(cpacr_save_enable_kernel_sme)
NOTHING(cpacr_save_enable_kernel_sve)
NOTHING(cpu_enable_swapper_cnp)
NOTHING(cpu_mitigations_off)
NOTHING(cpu_replace_ttbr1)
NOTHING(cpuinfo_detect_icache_policy)
NOTHING(isb)
NOTHING(kasan_init_hw_tags_cpu)
NOTHING(kaslr_enabled)
#if NEW
NOTHING(kaslr_requires_kpti)
#endif
NOTHING(lm_alias)
NOTHING(local_flush_tlb_all)
NOTHING(minsigstksz_setup)
NOTHING(mte_clear_page_tags)
NOTHING(mte_cpu_setup)
NOTHING(pt_regs_write_reg)
NOTHING(sme_setup)
NOTHING(sve_setup)
NOTHING(update_freq_counters_refs)

int gic_enable_sre()
{
	return 1;
}

int cache_type_cwg()
{
	return 1;
}
