/* Functions and macros of headers that are empty here. */
#ifndef REST_H
#define REST_H
enum vec_type { ARM64_VEC_SVE = 0, ARM64_VEC_SME, ARM64_VEC_MAX };
void vec_init_vq_map(enum vec_type type);
void vec_update_vq_map(enum vec_type type);
int vec_verify_vq_map(enum vec_type type);
u64 read_zcr_features(void);
u64 read_smcr_features(void);
void parse_overrides(void);

#define ARCH_DMA_MINALIGN 128
#define CPUHP_AP_ONLINE_DYN 0
#define AARCH64_INSN_SIZE 4
#define AARCH64_INSN_IMM_16 0
#define AARCH64_INSN_REGTYPE_RT 0
#define PSR_AA32_MODE_MASK 0
#define PSR_MODE_EL0t 0
extern pgd_t swapper_pg_dir[], idmap_pg_dir[];
enum mitigation_state { SPECTRE_UNAFFECTED, SPECTRE_MITIGATED, SPECTRE_VULNERABLE };
#define TCR_HD 0
#define TCR_HA 0
#define EL1_VECTOR_KPTI 0
#define COMPAT_HWCAP2_AES 0
extern char empty_zero_page[];
extern unsigned int compat_elf_hwcap2;
enum kvm_mode { KVM_MODE_DEFAULT, KVM_MODE_PROTECTED, KVM_MODE_NV, KVM_MODE_NONE };
#define kvm_get_mode() KVM_MODE_DEFAULT
#define is_hyp_mode_available() false
#define is_kernel_in_hyp_mode() true
#define is_hyp_nvhe() false
#define is_kdump_kernel() false

struct arm64_cpu_capabilities;
#define FINDS_NONE(name) \
	static inline bool name(const struct arm64_cpu_capabilities *unused, int scope) { return false; }
FINDS_NONE(has_spectre_v2)
FINDS_NONE(has_spectre_v3a)
FINDS_NONE(has_spectre_v4)
FINDS_NONE(is_spectre_bhb_affected)
#define ENABLES(name) static inline void name(const struct arm64_cpu_capabilities *unused) {}
ENABLES(spectre_v2_enable_mitigation)
ENABLES(spectre_v3a_enable_mitigation)
ENABLES(spectre_v4_enable_mitigation)
ENABLES(spectre_bhb_enable_mitigation)
#if NEW
ENABLES(cpu_enable_fpsimd)
ENABLES(cpu_enable_sve)
ENABLES(cpu_enable_sme)
ENABLES(cpu_enable_sme2)
ENABLES(cpu_enable_fa64)
ENABLES(cpu_enable_fpmr)
#else
ENABLES(sve_kernel_enable)
ENABLES(sme_kernel_enable)
ENABLES(fa64_kernel_enable)
#endif
#endif
