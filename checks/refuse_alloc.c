/* Preloaded before a program: refuses allocations by number and tells what was allocated before and after the first byte to standard
 * output. Only calls that the program itself makes are counted; those that the C library makes for itself are handed on.
 *
 *   REFUSE_ALLOC=K       the K-th allocation is refused; 0 or unset: none
 *   REFUSE_ALLOC_ON=1    each one after the K-th too
 *   REFUSE_ALLOC_TELL=F  a file of five 64-bit numbers, which is kept up to date while the program runs: allocations asked for,
 *                        allocations refused, bytes written to standard output, allocations asked for after the first of these bytes,
 *                        calls of free after it
 */
#define _GNU_SOURCE
#include <dlfcn.h>
#include <errno.h>
#include <fcntl.h>
#include <link.h>
#include <stdint.h>
#include <stdlib.h>
#include <string.h>
#include <sys/mman.h>
#include <sys/uio.h>
#include <unistd.h>

struct told {
    uint64_t asked, refused, out, asked_late, freed_late;
};

static struct told unheard;
static struct told *told = &unheard;
static uint64_t from;
static int on;
static uintptr_t low, high;

static void *(*next_malloc)(size_t);
static void *(*next_calloc)(size_t, size_t);
static void *(*next_realloc)(void *, size_t);
static void *(*next_aligned_alloc)(size_t, size_t);
static int (*next_posix_memalign)(void **, size_t, size_t);
static void (*next_free)(void *);
static ssize_t (*next_write)(int, const void *, size_t);
static ssize_t (*next_writev)(int, const struct iovec *, int);

/* dlsym may allocate before the functions below are found: it gets bytes of this buffer, which are never given back */
static char early[4096];
static size_t early_used;

static void *early_bytes(size_t size)
{
    size_t place = (early_used + 15) / 16 * 16;
    if (size > sizeof early - place)
        return NULL;
    early_used = place + size;
    return early + place;
}

static int is_early(void *bytes)
{
    return (char *)bytes >= early && (char *)bytes < early + sizeof early;
}

/* the program is the first object of the list */
static int program(struct dl_phdr_info *info, size_t size, void *unused)
{
    (void)size;
    (void)unused;
    for (int i = 0; i < info->dlpi_phnum; i++) {
        const ElfW(Phdr) *header = &info->dlpi_phdr[i];
        if (header->p_type != PT_LOAD)
            continue;
        uintptr_t start = info->dlpi_addr + header->p_vaddr;
        if (high == 0 || start < low)
            low = start;
        if (start + header->p_memsz > high)
            high = start + header->p_memsz;
    }
    return 1;
}

__attribute__((constructor)) static void begin(void)
{
    next_malloc = dlsym(RTLD_NEXT, "malloc");
    next_calloc = dlsym(RTLD_NEXT, "calloc");
    next_realloc = dlsym(RTLD_NEXT, "realloc");
    next_aligned_alloc = dlsym(RTLD_NEXT, "aligned_alloc");
    next_posix_memalign = dlsym(RTLD_NEXT, "posix_memalign");
    next_free = dlsym(RTLD_NEXT, "free");
    next_write = dlsym(RTLD_NEXT, "write");
    next_writev = dlsym(RTLD_NEXT, "writev");
    dl_iterate_phdr(program, NULL);
    const char *number = getenv("REFUSE_ALLOC");
    from = number ? strtoull(number, NULL, 10) : 0;
    const char *all = getenv("REFUSE_ALLOC_ON");
    on = all && *all == '1';
    const char *path = getenv("REFUSE_ALLOC_TELL");
    int file = path ? open(path, O_RDWR | O_CLOEXEC) : -1;
    if (file >= 0 && ftruncate(file, sizeof *told) == 0) {
        void *place = mmap(NULL, sizeof *told, PROT_READ | PROT_WRITE, MAP_SHARED, file, 0);
        if (place != MAP_FAILED)
            told = place;
    }
    if (file >= 0)
        close(file);
}

/* whether this allocation is refused */
static int refuses(void *caller)
{
    if ((uintptr_t)caller < low || (uintptr_t)caller >= high)
        return 0;
    uint64_t number = ++told->asked;
    if (told->out > 0)
        told->asked_late++;
    if (from == 0 || (on ? number < from : number != from))
        return 0;
    told->refused++;
    errno = ENOMEM;
    return 1;
}

#define CALLER __builtin_extract_return_addr(__builtin_return_address(0))

void *malloc(size_t size)
{
    if (!next_malloc)
        return early_bytes(size);
    return refuses(CALLER) ? NULL : next_malloc(size);
}

void *calloc(size_t count, size_t size)
{
    if (!next_calloc)
        return count && size > SIZE_MAX / count ? NULL : early_bytes(count * size);
    return refuses(CALLER) ? NULL : next_calloc(count, size);
}

void *realloc(void *bytes, size_t size)
{
    if (is_early(bytes)) {
        void *moved = malloc(size);
        if (moved)
            memcpy(moved, bytes, size < (size_t)(early + sizeof early - (char *)bytes) ? size : (size_t)(early + sizeof early - (char *)bytes));
        return moved;
    }
    return refuses(CALLER) ? NULL : next_realloc(bytes, size);
}

void *aligned_alloc(size_t alignment, size_t size)
{
    return refuses(CALLER) ? NULL : next_aligned_alloc(alignment, size);
}

int posix_memalign(void **place, size_t alignment, size_t size)
{
    return refuses(CALLER) ? ENOMEM : next_posix_memalign(place, alignment, size);
}

void free(void *bytes)
{
    if (bytes == NULL || is_early(bytes) || !next_free)
        return;
    if (told->out > 0 && (uintptr_t)CALLER >= low && (uintptr_t)CALLER < high)
        told->freed_late++;
    next_free(bytes);
}

ssize_t write(int file, const void *bytes, size_t size)
{
    ssize_t done = next_write(file, bytes, size);
    if (file == 1 && done > 0)
        told->out += done;
    return done;
}

ssize_t __write(int file, const void *bytes, size_t size)
{
    return write(file, bytes, size);
}

ssize_t writev(int file, const struct iovec *pieces, int count)
{
    ssize_t done = next_writev(file, pieces, count);
    if (file == 1 && done > 0)
        told->out += done;
    return done;
}
