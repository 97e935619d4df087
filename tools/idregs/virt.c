/*
 * Prints the ID registers of every core of QEMU's `virt` board over its serial port, as a machine text of armcaps, and switches
 * the board off. The boot core starts each other core by PSCI, and the core reads its own registers.
 *
 * With FORMAT=2 the text has the vector lengths of each core with SVE.
 */
#include <stddef.h>
#include <stdint.h>

#define CORES 512
#define PL011_DATA ((volatile uint32_t *)0x09000000)
#define PL011_FLAGS ((volatile uint32_t *)0x09000018)
#define PL011_FULL (1u << 5)

/* Arm Power State Coordination Interface, DEN0022 */
#define PSCI_CPU_ON 0xc4000003
#define PSCI_SYSTEM_OFF 0x84000008
#define PSCI_SUCCESS 0

static const char *const names[] = {
#define REGISTER(name, op0, op1, crn, crm, op2) #name,
#include "registers.h"
#undef REGISTER
};
#define COUNT (sizeof(names) / sizeof(names[0]))
#define PFR0 3 /* the place of id_aa64pfr0_el1 */

struct core {
	uint64_t words[COUNT];
	uint32_t lengths;
	volatile uint32_t done;
};

static struct core cores[CORES];

void secondary_start(void);

static void put(char byte)
{
	while (*PL011_FLAGS & PL011_FULL)
		;
	*PL011_DATA = (uint8_t)byte;
}

static void print(const char *text)
{
	while (*text)
		put(*text++);
}

static void print_hex(uint64_t word, int digits)
{
	print("0x");
	while (digits--)
		put("0123456789abcdef"[word >> (4 * digits) & 15]);
}

static void print_decimal(unsigned int number)
{
	if (number >= 10)
		print_decimal(number / 10);
	put((char)('0' + number % 10));
}

/* Whether this runs at EL2, as on a board with `virtualization=on`: PSCI is then called by SMC, and EL2 has its own SVE registers. */
static int is_at_el2(void)
{
	uint64_t level;

	__asm__("mrs %0, CurrentEL" : "=r"(level));
	return level >> 2 == 2;
}

static int64_t psci(uint64_t function, uint64_t a, uint64_t b, uint64_t c)
{
	register uint64_t x0 __asm__("x0") = function;
	register uint64_t x1 __asm__("x1") = a;
	register uint64_t x2 __asm__("x2") = b;
	register uint64_t x3 __asm__("x3") = c;

	if (is_at_el2())
		__asm__ volatile("smc #0" : "+r"(x0), "+r"(x1), "+r"(x2), "+r"(x3) : : "memory");
	else
		__asm__ volatile("hvc #0" : "+r"(x0), "+r"(x1), "+r"(x2), "+r"(x3) : : "memory");
	return (int64_t)x0;
}

/* Bit q - 1 says that the core has vectors of 128 * q bits: it has a length that stays as it is asked for. */
static uint32_t vector_lengths(uint64_t pfr0)
{
	uint32_t lengths = 0;

	if (FORMAT == 1 || (pfr0 >> 32 & 15) == 0)
		return 0;
	/* CPACR_EL1: neither SVE (ZEN) nor floating point (FPEN) is trapped; CPTR_EL2 without TZ and TFP says the same for EL2 */
	if (is_at_el2())
		__asm__ volatile("msr cptr_el2, %0\n\tisb" : : "r"((uint64_t)0x32ff));
	else
		__asm__ volatile("msr cpacr_el1, %0\n\tisb" : : "r"((uint64_t)3 << 20 | (uint64_t)3 << 16));
	for (uint64_t q = 1; q <= 16; q++) {
		register uint64_t bytes __asm__("x0");

		/* ZCR_EL1.LEN or ZCR_EL2.LEN, then RDVL x0, #1 */
		if (is_at_el2())
			__asm__ volatile("msr S3_4_C1_C2_0, %0\n\tisb" : : "r"(q - 1));
		else
			__asm__ volatile("msr S3_0_C1_C2_0, %0\n\tisb" : : "r"(q - 1));
		__asm__ volatile(".inst 0x04bf5020" : "=r"(bytes));
		if (bytes == 16 * q)
			lengths |= 1u << (q - 1);
	}
	return lengths;
}

static void read_core(struct core *core)
{
	uint64_t *word = core->words;

#define GENERIC(op0, op1, crn, crm, op2) "s" #op0 "_" #op1 "_c" #crn "_c" #crm "_" #op2
#define REGISTER(name, op0, op1, crn, crm, op2) __asm__ volatile("mrs %0, " GENERIC(op0, op1, crn, crm, op2) : "=r"(*word++));
#include "registers.h"
#undef REGISTER
	core->lengths = vector_lengths(core->words[PFR0]);
	__asm__ volatile("dsb sy" : : : "memory");
	core->done = 1;
}

void secondary_core(uint64_t number)
{
	read_core(&cores[number]);
}

/* Starts every core that PSCI knows, one after the other, and answers how many there are with the boot core. */
static unsigned int start_cores(void)
{
	unsigned int count = 1;

	for (uint64_t cluster = 0; cluster < 64; cluster++) {
		for (uint64_t place = 0; place < 16 && count < CORES; place++) {
			uint64_t target = cluster << 8 | place;

			if (psci(PSCI_CPU_ON, target, (uint64_t)(uintptr_t)secondary_start, count) != PSCI_SUCCESS)
				continue;
			while (!cores[count].done)
				;
			count++;
		}
	}
	return count;
}

static void print_core(unsigned int number)
{
	print("core ");
	print_decimal(number);
	put('\n');
	for (size_t i = 0; i < COUNT; i++) {
		print(names[i]);
		put(' ');
		print_hex(cores[number].words[i], 16);
		put('\n');
	}
	if (FORMAT == 2) {
		print("sve_vl ");
		print_hex(cores[number].lengths, 4);
		put('\n');
	}
}

void boot_core(void)
{
	unsigned int count;

	read_core(&cores[0]);
	count = start_cores();
	print(FORMAT == 2 ? "armcaps 2\n" : "armcaps 1\n");
	for (unsigned int number = 0; number < count; number++)
		print_core(number);
	print("boot 0\n");
	for (unsigned int number = 1; number < count; number++) {
		print("online ");
		print_decimal(number);
		put('\n');
	}
	print("finalise\nend\n");
	psci(PSCI_SYSTEM_OFF, 0, 0, 0);
}
