/* The kernel's reading of its command line. */
#include <asm/sysreg.h>
#include <asm/cpufeature.h>

extern const char *command_line;
static void *get_early_fdt_ptr(void) { return (void *)1; }
static int fdt_path_offset(const void *fdt, const char *path) { return 0; }
static const void *fdt_getprop(const void *fdt, int node, const char *name, int *length) { return command_line; }
#define dcache_clean_inval_poc(a, b) ((void)0)
#define BOOT_CPU_FLAG_E2H 0x100000000ULL
#define BOOT_CPU_MODE_EL2 0xe12
struct arm64_ftr_override kaslr_feature_override;
char *skip_spaces(const char *text);
#if !NEW
#define KSTRTOX_OVERFLOW (1U << 31)
#define div_u64(a, b) ((a) / (b))
#define _tolower(c) ((c) | 0x20)
#define kstrtou64(text, base, to) kstrtoull(text, base, (unsigned long long *)(to))
#include "params.c"
char *skip_spaces(const char *text)
{
	while (isspace(*text))
		text++;
	return (char *)text;
}
#endif
#include "idreg-override.c"

void parse_overrides(void)
{
#if NEW
	init_feature_override(0, (void *)1, 0);
#else
	init_feature_override(0);
#endif
}
