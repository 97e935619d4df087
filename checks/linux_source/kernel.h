/*
 * What the kernel's files ask of the rest of the kernel, for one core after the other in one process: types, bits, lists
 * of cores. Parking and panic leave the core's way by longjmp.
 */
#include <ctype.h>
#include <errno.h>
#include <limits.h>
#include <setjmp.h>
#include <stdbool.h>
#include <stddef.h>
#include <stdint.h>
#include <stdio.h>
#include <stdlib.h>
#include <string.h>

typedef uint8_t u8;
typedef uint16_t u16;
typedef uint32_t u32, __u32, __le32;
typedef uint64_t u64, __u64;
typedef int8_t s8;
typedef int16_t s16;
typedef int32_t s32;
typedef int64_t s64;
typedef unsigned long ulong;
typedef long ssize_t_;
typedef u64 phys_addr_t;
typedef u16 umode_t;
typedef unsigned int gfp_t;

/* options: all are on but the hypervisor's */
#define __ARG_PLACEHOLDER_1 0,
#define __take_second_arg(ignored, val, ...) val
#define __is_defined(x) ___is_defined(x)
#define ___is_defined(val) ____is_defined(__ARG_PLACEHOLDER_##val)
#define ____is_defined(junk) __take_second_arg(junk 1, 0)
#define IS_ENABLED(option) __is_defined(option)
#define IS_BUILTIN(option) __is_defined(option)
#include "options.h"

#define __init
#define __initdata
#define __initconst
#define __ro_after_init
#define __read_mostly
#define __maybe_unused __attribute__((unused))
#define __always_unused __attribute__((unused))
#define __always_inline inline
#define __attribute_const__
#define __percpu
#define __user
#define __force
#define noinstr
#define asmlinkage
#define __refdata
#define __pure
#define __prel64_initconst
#define PREL64(type, name) union { type *name; }
#define prel64_pointer(p) (p)
#define EXPORT_SYMBOL_GPL(x)
#define EXPORT_SYMBOL(x)
#define EXPORT_PER_CPU_SYMBOL(x)
#define early_param(name, f)
#define core_initcall(f)
#define subsys_initcall_sync(f)
#define late_initcall_sync(f)
#define arch_initcall(f)
#define late_initcall(f)
#define device_initcall(f)
#define fallthrough
#define likely(x) (x)
#define unlikely(x) (x)
#define barrier()
#define READ_ONCE(x) (x)
#define WRITE_ONCE(x, v) ((x) = (v))
#define typecheck(t, x) 1
#define BUILD_BUG_ON(x)
#define BUILD_BUG_ON_ZERO(x) 0
#define BUILD_BUG_ON_MSG(x, m)
#define BUILD_BUG() abort()
#define static_assert(...)
#define compiletime_assert(c, m)
#define __stringify_1(x...) #x
#define __stringify(x...) __stringify_1(x)
#define ARRAY_SIZE(x) (sizeof(x) / sizeof((x)[0]))
#define min(a, b) ((a) < (b) ? (a) : (b))
#define max(a, b) ((a) > (b) ? (a) : (b))
#define min_t(t, a, b) ((t)(a) < (t)(b) ? (t)(a) : (t)(b))
#define max_t(t, a, b) ((t)(a) > (t)(b) ? (t)(a) : (t)(b))
#define container_of(p, t, m) ((t *)((char *)(p) - offsetof(t, m)))
#define ERR_PTR(x) ((void *)(x))

#define WARN(c, f...) ({ int c_ = !!(c); if (c_) tell_warning(__FILE__, __LINE__); c_; })
#define WARN_ON(c) WARN(c, "")
#define WARN_ON_ONCE(c) WARN(c, "")
#define WARN_ONCE(c, f...) WARN(c, "")
#define BUG_ON(c) do { if (c) abort(); } while (0)
#define BUG() abort()
#define pr_info(f, a...) tell("info", f, ##a)
#define pr_warn(f, a...) tell("warn", f, ##a)
#define pr_warn_once(f, a...) ((void)0)
#define pr_info_once(f, a...) ((void)0)
#define pr_crit(f, a...) tell("crit", f, ##a)
#define pr_err(f, a...) tell("err", f, ##a)
#define pr_err_once(f, a...) ((void)0)
#define pr_debug(f, a...) ((void)0)
#define pr_emerg(f, a...) ((void)0)
void tell(const char *level, const char *form, ...);
void tell_warning(const char *file, int line);

#define BITS_PER_LONG 64
#define BITS_PER_TYPE(t) (8 * sizeof(t))
#define BIT(n) (1UL << (n))
#define BIT_ULL(n) (1ULL << (n))
#define UL(x) (x##UL)
#define _UL(x) (x##UL)
#define _BITUL(x) (1UL << (x))
#define UL(x) (x##UL)
#define GENMASK(h, l) ((~0UL << (l)) & (~0UL >> (63 - (h))))
#define GENMASK_ULL(h, l) GENMASK(h, l)
#define BITS_TO_LONGS(n) (((n) + 63) / 64)
#define DECLARE_BITMAP(name, bits) unsigned long name[BITS_TO_LONGS(bits)]
#define set_bit(n, p) ((p)[(n) / 64] |= 1UL << ((n) % 64))
#define __set_bit(n, p) set_bit(n, p)
#define clear_bit(n, p) ((p)[(n) / 64] &= ~(1UL << ((n) % 64)))
#define test_bit(n, p) ((p)[(n) / 64] >> ((n) % 64) & 1)
#define arch_test_bit(n, p) test_bit(n, p)
#define for_each_set_bit(i, p, n) for ((i) = 0; (i) < (n); (i)++) if (test_bit(i, p))
#define _AT(t, x) ((t)(x))
#define hweight64(x) __builtin_popcountll(x)
#define ilog2(x) (63 - __builtin_clzll(x))
#define const_ilog2(x) (63 - __builtin_clzll(x))
#define __bf_shf(x) __builtin_ctzll(x)
#define FIELD_GET(mask, v) (((v) & (mask)) >> __bf_shf(mask))
#define FIELD_PREP(mask, v) (((u64)(v) << __bf_shf(mask)) & (mask))
#define FIELD_MAX(mask) ((mask) >> __bf_shf(mask))
#define bitmap_zero(p, n) memset(p, 0, BITS_TO_LONGS(n) * 8)
#define lower_32_bits(x) ((u32)(x))

#define DEFINE_RAW_SPINLOCK(n) int n
#define raw_spin_lock(l) ((void)0)
#define raw_spin_unlock(l) ((void)0)

/* one core runs at a time */
typedef struct cpumask { unsigned long bits[8]; } cpumask_t;
typedef cpumask_t cpumask_var_t[1];
#define cpumask_set_cpu(n, m) ((void)0)
#define cpumask_clear_cpu(n, m) ((void)0)
#define cpumask_test_cpu(n, m) 0
#define cpumask_any(m) 0
#define cpumask_any_and(a, b) 0
#define cpumask_pr_args(m) 0, 0UL
#define cpumask_available(m) 0
#define zalloc_cpumask_var(m, g) 0
#define cpu_online_mask NULL
#define cpu_active_mask NULL
#define cpu_possible_mask NULL
#define cpu_present_mask NULL
#define for_each_possible_cpu(i) for ((i) = 0; (i) < cores; (i)++)
#define nr_cpu_ids 512
#define cpumask_first(m) 0
#define NR_CPUS 512
#define DECLARE_PER_CPU(t, n) extern t n[512]
#define DEFINE_PER_CPU(t, n) t n[512]
#define DECLARE_PER_CPU_READ_MOSTLY(t, n) extern t n[512]
#define DEFINE_PER_CPU_READ_MOSTLY(t, n) t n[512]; t n##_first
#define per_cpu(n, c) (n[c])
#define this_cpu_ptr(p) (&(*(p))[core])
#define __this_cpu_write(n, v) (n[core] = (v))
#define this_cpu_write(n, v) (n[core] = (v))
#define __this_cpu_read(n) (n[core])
#define this_cpu_read(n) (n[core])
#define smp_processor_id() core
#define raw_smp_processor_id() core
#define preemptible() 0
#define in_interrupt() 0
#define get_cpu_device(c) ((struct device *)NULL)
#define stop_machine(f, d, m) on_all(f, d)
#define on_each_cpu(f, d, w) ((void)0)
extern int core, cores;
void on_all(int (*f)(void *), void *data);

/* the kernel's structures, as far as they are named */
#define __cpumask_var_read_mostly
#define cpu_none_mask NULL
#define TAINT_CPU_OUT_OF_SPEC 0
#define LOCKDEP_STILL_OK 0
#define DEVICE_ATTR_RO(n) struct device_attribute dev_attr_##n
struct cpu { int unused; };
struct bus { struct device *dev_root; };
extern struct bus cpu_subsys;
extern char vectors[];
struct kobject { int unused; };
struct attribute { const char *name; umode_t mode; };
struct device { bool offline_disabled; };
struct device_attribute { struct attribute attr; void *show, *store; };
struct kobj_attribute { struct attribute attr; };
struct pt_regs { int unused; };
struct task_struct;
struct alt_instr { int unused; };
struct undef_hook { u32 instr_mask, instr_val; u64 pstate_mask, pstate_val; int (*fn)(struct pt_regs *, u32); };
struct device_node;
typedef struct { u64 pgd; } pgd_t;
typedef struct { u64 pgprot; } pgprot_t;
struct arm_smccc_res { unsigned long a0, a1, a2, a3; };
struct static_key_false { int on; };
struct static_key_true { int on; };
#define DECLARE_STATIC_KEY_FALSE(n) extern struct static_key_false n
#define DEFINE_STATIC_KEY_FALSE(n) struct static_key_false n
#define DEFINE_STATIC_KEY_TRUE(n) struct static_key_true n = { 1 }
#define DECLARE_STATIC_KEY_TRUE(n) extern struct static_key_true n
#define static_branch_unlikely(k) ((k)->on)
#define static_branch_likely(k) ((k)->on)
#define static_branch_enable_cpuslocked(k) ((k)->on = 1)
#define static_branch_enable(k) ((k)->on = 1)
#define static_branch_disable(k) ((k)->on = 0)
#define struct_group(n, m...) struct { m }

/* alternatives: a site is patched when the capabilities of its kind were applied */
bool is_applied(unsigned int number);
#define alternative_has_feature_likely(n) is_applied(n)
#define alternative_has_feature_unlikely(n) is_applied(n)
#define alternative_has_cap_likely(n) is_applied(n)
#define alternative_has_cap_unlikely(n) is_applied(n)
#define ALTERNATIVE(a, b, c...) "nop"
bool alternative_is_applied(u16 number);
void apply_alternatives_all(void);

/* registers */
u64 read_register(u32 number);
u64 read_cpuid_effective_cachetype(void);
#define CTR_CACHE_MINLINE_MASK 0
#include "rest.h"
