/*
 * Machines on standard input, what the kernel makes of each on standard output. A machine is a process: it begins with
 * no state. Of a machine there are these lines:
 *
 * machine CORES
 * a line a core: its 17 registers as in `order`, and its vector lengths, in hexadecimal
 * cmdline TEXT
 * a line a step: online K, offline K or finalise
 * end
 */
#include "cpufeature.c"
static struct cpuinfo_arm64 boot_cpu_data;
#include "cpuinfo.c"
static u32 asid_bits;
#include "context.c"
#include <stdarg.h>
#include <sys/wait.h>
#include <unistd.h>

#define CORES 64
#define REGISTERS 17

static const u32 order[REGISTERS] = {
	SYS_MIDR_EL1,
	SYS_MPIDR_EL1,
	SYS_REVIDR_EL1,
	SYS_ID_AA64PFR0_EL1,
	SYS_ID_AA64PFR1_EL1,
	SYS_ID_AA64ZFR0_EL1,
	SYS_ID_AA64SMFR0_EL1,
	SYS_ID_AA64DFR0_EL1,
	SYS_ID_AA64ISAR0_EL1,
	SYS_ID_AA64ISAR1_EL1,
	SYS_ID_AA64ISAR2_EL1,
	SYS_ID_AA64MMFR0_EL1,
	SYS_ID_AA64MMFR1_EL1,
	SYS_ID_AA64MMFR2_EL1,
#if NEW
	SYS_ID_AA64MMFR3_EL1,
#else
	sys_reg(3, 0, 0, 7, 3),
#endif
	SYS_CTR_EL0,
	SYS_DCZID_EL0,
};

int core, cores;
const char *command_line;
static u64 words[CORES][REGISTERS];
static u32 lengths[CORES], kept_lengths;
static bool lengths_begun, applied_boot, applied_system, halted;
static char state[CORES][160];
static jmp_buf out;
static char reason[128];

u64 read_register(u32 number)
{
	for (int i = 0; i < REGISTERS; i++)
		if (order[i] == number)
			return words[core][i];
	return 0;
}

u64 read_cpuid_effective_cachetype(void)
{
	return read_register(SYS_CTR_EL0);
}

void tell(const char *level, const char *form, ...)
{
	char line[512];
	va_list list;

	va_start(list, form);
	vsnprintf(line, sizeof(line), form, list);
	va_end(list);
	if (!strncmp(level, "crit", 4))
		snprintf(reason, sizeof(reason), "%s", line);
	if (strncmp(level, "info", 4))
		printf("told %s", line);
}

void tell_warning(const char *file, int line)
{
	printf("warning %s:%d\n", file, line);
}

bool is_applied(unsigned int number)
{
	if (!cpus_have_cap(number))
		return false;
#if NEW
	if (test_bit(number, boot_cpucaps))
#else
	if (test_bit(number, boot_capabilities))
#endif
		return applied_boot;
	return applied_system;
}

bool alternative_is_applied(u16 number)
{
	return is_applied(number);
}

void apply_alternatives_all(void)
{
	applied_system = true;
}

void on_all(int (*f)(void *), void *data)
{
	int now = core;

	for (core = 0; core < cores; core++)
		if (!strcmp(state[core], "online"))
			f(data);
	core = now;
}

void cpu_die_early(void)
{
	longjmp(out, 1);
}

void cpu_panic_kernel(void)
{
	longjmp(out, 2);
}

/* vector lengths, as fpsimd.c has them */
void vec_init_vq_map(enum vec_type type)
{
	if (type == ARM64_VEC_SVE)
		kept_lengths = lengths[core];
}

void vec_update_vq_map(enum vec_type type)
{
	if (type == ARM64_VEC_SVE)
		kept_lengths &= lengths[core];
}

int vec_verify_vq_map(enum vec_type type)
{
	return type == ARM64_VEC_SVE && kept_lengths & ~lengths[core] ? -EINVAL : 0;
}

static u64 greatest_length(void)
{
	return lengths[core] ? 31 - __builtin_clz(lengths[core]) : 0;
}

u64 read_zcr_features(void)
{
	return greatest_length();
}

u64 read_smcr_features(void)
{
	return 0;
}

static void come_up(int number)
{
	int how;

	core = number;
	reason[0] = 0;
	how = setjmp(out);
	if (how) {
		snprintf(state[number], sizeof(state[number]), "%s %s", how == 1 ? "parked" : "panic", reason);
		state[number][strcspn(state[number], "\n")] = 0;
		halted |= how == 2;
		return;
	}
	check_local_cpu_capabilities();
	cpuinfo_store_cpu();
	strcpy(state[number], "online");
}

static void boot(void)
{
	core = 0;
	parse_overrides();
	strcpy(state[0], "online");
	asid_bits = get_cpu_asid_bits();
	cpuinfo_store_boot_cpu();
#if NEW
	setup_boot_cpu_features();
#endif
	applied_boot = true;
}

static void finalise(void)
{
	core = 0;
#if NEW
	setup_system_features();
	setup_user_features();
#else
	setup_cpu_features();
	applied_system = true;
#endif
}

/* What a program on the present core reads at each place that the kernel emulates; nothing where that is 0. */
static void print_reads(void)
{
	for (u32 place = 0; place < 128; place++) {
		u64 value;

		if (emulate_sys_reg(sys_reg(3, 0, 0, place >> 3, place & 7), &value))
			printf("mrs %d %u undefined\n", core, place);
		else if (value)
			printf("mrs %d %u 0x%llx\n", core, place, (unsigned long long)value);
	}
}

static void print_answer(void)
{
	for (int i = 0; i < cores; i++)
		printf("core %d %s\n", i, state[i][0] ? state[i] : "absent");
	for (int i = 3; i < REGISTERS; i++) {
		struct arm64_ftr_reg *reg = get_arm64_ftr_reg_nowarn(order[i]);

		if (reg)
			printf("reg %d 0x%llx 0x%llx\n", i, (unsigned long long)reg->sys_val,
			       (unsigned long long)arm64_ftr_reg_user_value(reg));
	}
	for (unsigned int i = 0; i < ARM64_NCAPS; i++)
		if (cpus_have_cap(i))
			printf("cap %u\n", i);
	printf("hwcap 0x%llx 0x%llx\n", (unsigned long long)elf_hwcap[0], (unsigned long long)elf_hwcap[1]);
	printf("vl 0x%x\n", kept_lengths);
	for (core = 0; core < cores; core++)
		if (!strcmp(state[core], "online"))
			print_reads();
}

/* One machine's lines from the input; false at its end. */
static bool read_machine(char lines[][4096], int *count)
{
	*count = 0;
	while (fgets(lines[*count], 4096, stdin)) {
		lines[*count][strcspn(lines[*count], "\n")] = 0;
		if (!strcmp(lines[*count], "end"))
			return true;
		++*count;
	}
	return false;
}

static void run(char lines[][4096], int count)
{
	int line = 1, number;

	sscanf(lines[0], "machine %d", &cores);
	for (core = 0; core < cores; core++, line++) {
		char *rest = lines[line];

		for (int i = 0; i < REGISTERS; i++)
			words[core][i] = strtoull(rest, &rest, 16);
		lengths[core] = strtoul(rest, NULL, 16);
	}
	command_line = lines[line++] + strlen("cmdline ");
	boot();
	for (; line < count && !halted; line++) {
		if (!strcmp(lines[line], "finalise"))
			finalise();
		else if (sscanf(lines[line], "online %d", &number) == 1)
			come_up(number);
		else if (sscanf(lines[line], "offline %d", &number) == 1 && !strcmp(state[number], "online"))
			strcpy(state[number], "offline");
	}
	print_answer();
}

/* What the kernel knows: its rows, its numbers with their classes, its hwcaps. */
static void print_tables(void)
{
	for (int i = 3; i < REGISTERS; i++) {
		struct arm64_ftr_reg *reg = get_arm64_ftr_reg_nowarn(order[i]);

		for (const struct arm64_ftr_bits *row = reg ? reg->ftr_bits : NULL; row && row->width; row++)
			printf("row %d %d %d %d %d %d %d %lld\n", i, row->shift, row->width, row->sign, row->type, row->visible,
			       row->strict, (long long)row->safe_val);
	}
	printf("done\n");
}

int main(int count_words, char **given)
{
	static char lines[700][4096];
	int count;

	if (count_words > 1) {
		print_tables();
		return 0;
	}
	while (read_machine(lines, &count)) {
		fflush(stdout);
		if (fork() == 0) {
			run(lines, count);
			fflush(stdout);
			_exit(0);
		}
		int status;
		wait(&status);
		if (status)
			printf("died %d\n", status);
		printf("done\n");
	}
	return 0;
}
