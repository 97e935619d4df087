/*
 * The one program of the guest, run by its kernel as /init. Prints, each as a line that begins with `@`: the hwcaps,
 * what MRS of the ID space reads on each core, and which cores are online after each but the first went offline and
 * came back; then the kernel's log. After `@ready` it waits, so that the guest's memory can be read.
 */
#define _GNU_SOURCE
#include <fcntl.h>
#include <sched.h>
#include <setjmp.h>
#include <signal.h>
#include <stdint.h>
#include <stdio.h>
#include <stdlib.h>
#include <string.h>
#include <sys/auxv.h>
#include <sys/klog.h>
#include <sys/mman.h>
#include <sys/mount.h>
#include <unistd.h>

#define LOG_READ_ALL 3
#define LOG_BYTES (1 << 20)
#define PLACES 128

static sigjmp_buf back;

static void on_fault(int number)
{
	siglongjmp(back, number);
}

/* One function a place: MRS x0 of S3_0_C0_CRm_op2, then RET. */
static uint32_t (*code)[2];

static void write_places(void)
{
	size_t size = PLACES * sizeof(*code);

	code = mmap(NULL, size, PROT_READ | PROT_WRITE | PROT_EXEC, MAP_PRIVATE | MAP_ANONYMOUS, -1, 0);
	for (int place = 0; place < PLACES; place++) {
		code[place][0] = 0xd5380000 | place << 5; /* CRm is the upper four bits of place, op2 the lower three */
		code[place][1] = 0xd65f03c0;
	}
	__builtin___clear_cache((char *)code, (char *)code + size);
}

static void print_places(int core)
{
	for (int place = 0; place < PLACES; place++) {
		uint64_t (*volatile read_place)(void) = (uint64_t (*)(void))(uintptr_t)code[place];

		if (sigsetjmp(back, 1))
			printf("@mrs %d 0x%08x undefined\n", core, code[place][0]);
		else
			printf("@mrs %d 0x%08x 0x%016llx\n", core, code[place][0], (unsigned long long)read_place());
	}
}

static void stay_on(long core)
{
	cpu_set_t set;

	CPU_ZERO(&set);
	CPU_SET(core, &set);
	if (sched_setaffinity(0, sizeof(set), &set))
		printf("@failed affinity %ld\n", core);
}

static void write_file(const char *name, const char *text)
{
	int file = open(name, O_WRONLY);

	if (file < 0 || write(file, text, strlen(text)) < 0)
		printf("@failed %s\n", name);
	if (file >= 0)
		close(file);
}

static void print_file(const char *mark, const char *name)
{
	char text[256];
	int file = open(name, O_RDONLY);
	ssize_t count = file < 0 ? -1 : read(file, text, sizeof(text) - 1);

	if (count < 0)
		count = 0;
	text[count] = 0;
	text[strcspn(text, "\n")] = 0;
	printf("%s %s\n", mark, text);
	if (file >= 0)
		close(file);
}

static void switch_cores(long cores, const char *state)
{
	for (long core = 1; core < cores; core++) {
		char name[64];

		snprintf(name, sizeof(name), "/sys/devices/system/cpu/cpu%ld/online", core);
		write_file(name, state);
	}
}

static void print_log(void)
{
	char *log = malloc(LOG_BYTES);
	int count = log ? klogctl(LOG_READ_ALL, log, LOG_BYTES) : -1;

	puts("@log");
	if (count > 0)
		fwrite(log, 1, count, stdout);
	puts("@end");
}

int main(void)
{
	struct sigaction action = { .sa_handler = on_fault };
	long cores;

	setvbuf(stdout, NULL, _IOFBF, 1 << 16);
	sigaction(SIGILL, &action, NULL);
	mount("proc", "/proc", "proc", 0, "");
	mount("sys", "/sys", "sysfs", 0, "");
	write_places();

	printf("@hwcap 0x%016lx 0x%016lx\n", getauxval(AT_HWCAP), getauxval(AT_HWCAP2));
	cores = sysconf(_SC_NPROCESSORS_ONLN);
	for (long core = 0; core < cores; core++) {
		stay_on(core);
		print_places((int)core);
	}
	stay_on(0);
	print_file("@online", "/sys/devices/system/cpu/online");
	switch_cores(cores, "0");
	print_file("@offline", "/sys/devices/system/cpu/offline");
	switch_cores(cores, "1");
	print_file("@online", "/sys/devices/system/cpu/online");
	print_log();
	puts("@ready");
	fflush(stdout);
	for (;;)
		pause();
}
