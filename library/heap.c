/* Memory for the proved library: what it asks for comes from malloc, realloc and free.
 *
 * The proof rests on what is said of each function here. A block is aligned to `align`, a power of two up to 16 that
 * divides `size`: malloc aligns to 16 bytes on the systems that are built for.
 */
#include <stddef.h>
#include <stdint.h>
#include <stdlib.h>

_Static_assert(_Alignof(max_align_t) >= 16, "malloc aligns to 16 bytes");

/* whether there was memory, and where; `at` is no null pointer in either case */
struct tried {
    uint64_t given;
    void *at;
};

static struct tried answer(void *at)
{
    static char nothing;
    struct tried tried = {at != NULL, at != NULL ? at : &nothing};
    return tried;
}

/* A new block of `size` bytes, or none. A block without bytes has an address of its own. */
struct tried rattle_alloc(size_t size, size_t align)
{
    return answer(malloc(size != 0 ? size : align));
}

/* The block with `size` bytes, maybe elsewhere, the first of which are as they were; or none, and the block stays. */
struct tried rattle_realloc(void *block, size_t kept, size_t size, size_t align)
{
    (void)kept;
    return answer(realloc(block, size != 0 ? size : align));
}

/* Gives a block back. */
void rattle_dealloc(void *block)
{
    free(block);
}
