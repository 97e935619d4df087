// SPDX-License-Identifier: GPL-2.0
/*
 * Shows the ID registers of every online core as a machine text of armcaps, in /proc/idregs.
 *
 * The registers are read on each core by itself, at the exception level of the kernel: what user space reads of them is the
 * kernel's sanitised value and not the core's. All online cores count as early; the boot core is the first one listed.
 */
#include <linux/cpu.h>
#include <linux/cpumask.h>
#include <linux/module.h>
#include <linux/proc_fs.h>
#include <linux/seq_file.h>
#include <linux/slab.h>
#include <linux/smp.h>
#include <asm/sysreg.h>

/* How many cores the first format of a machine text has. */
#define FORMAT_1_CORES 64

static const char *const names[] = {
#define REGISTER(name, op0, op1, crn, crm, op2) #name,
#include "registers.h"
#undef REGISTER
};

struct words {
	u64 of[ARRAY_SIZE(names)];
};

static void read_words(void *to)
{
	u64 *word = ((struct words *)to)->of;

#define REGISTER(name, op0, op1, crn, crm, op2) *word++ = read_sysreg_s(sys_reg(op0, op1, crn, crm, op2));
#include "registers.h"
#undef REGISTER
}

/* Prints one core's registers; the core must not go offline meanwhile. */
static int show_core(struct seq_file *file, unsigned int number, unsigned int cpu)
{
	struct words words;
	size_t i;
	int fault = smp_call_function_single(cpu, read_words, &words, 1);

	if (fault)
		return fault;
	seq_printf(file, "# cpu %u\ncore %u\n", cpu, number);
	for (i = 0; i < ARRAY_SIZE(names); i++)
		seq_printf(file, "%s 0x%016llx\n", names[i], words.of[i]);
	return 0;
}

static int show(struct seq_file *file, void *unused)
{
	unsigned int cpu, number = 0, core;
	int fault = 0;

	cpus_read_lock();
	seq_printf(file, "armcaps %d\n", num_online_cpus() > FORMAT_1_CORES ? 2 : 1);
	for_each_online_cpu(cpu) {
		fault = show_core(file, number, cpu);
		if (fault)
			break;
		number++;
	}
	cpus_read_unlock();
	if (fault)
		return fault;
	seq_puts(file, "boot 0\n");
	for (core = 1; core < number; core++)
		seq_printf(file, "online %u\n", core);
	seq_puts(file, "finalise\nend\n");
	return 0;
}

static int __init idregs_init(void)
{
	return proc_create_single("idregs", 0400, NULL, show) ? 0 : -ENOMEM;
}

static void __exit idregs_exit(void)
{
	remove_proc_entry("idregs", NULL);
}

module_init(idregs_init);
module_exit(idregs_exit);
MODULE_LICENSE("GPL");
MODULE_DESCRIPTION("The ID registers of each core, as a machine text of armcaps");
