/* The heap: blocks by size, at most four sizes to a power of two, each with its size before it. */

#include "heap.h"

#define PAGE 65536UL
#define HEAD 16UL

struct block {
    u64 size;
    struct block *next;
};

extern u8 __heap_base;
static u8 *top, *end;
static struct block *freed[4 * 64];

/* The least size that is kept for a request, a multiple of 16, and its place among the sizes. */
static u64 class_of(u64 size, u64 *rounded)
{
    u64 power = size <= 64 ? 6 : 64 - (u64)__builtin_clzl(size - 1);
    u64 step = power == 6 ? 16 : (1UL << power) / 8, half = (1UL << power) / 2;
    u64 quarters = size <= half ? 1 : (size - half + step - 1) / step;
    *rounded = half + quarters * step;
    return power * 4 + quarters - 1;
}

static u8 *fresh(u64 size)
{
    if (!top) {
        top = (u8 *)(((u64)&__heap_base + 15) & ~15UL);
        end = (u8 *)(__builtin_wasm_memory_size(0) * PAGE);
    }
    if ((u64)(end - top) < size) {
        /* whether it grew is asked of its size: once lowered to 32 bits, a growth that fails does not answer -1 */
        __builtin_wasm_memory_grow(0, (size - (u64)(end - top) + PAGE - 1) / PAGE);
        end = (u8 *)(__builtin_wasm_memory_size(0) * PAGE);
        if ((u64)(end - top) < size)
            return 0;
    }
    u8 *at = top;
    top += size;
    return at;
}

void *take(u64 size)
{
    u64 rounded, place;
    if (size > 1UL << 40)
        return 0;
    place = class_of(size, &rounded);
    struct block *block = freed[place];
    if (block)
        freed[place] = block->next;
    else {
        block = (struct block *)fresh(HEAD + rounded);
        if (!block)
            return 0;
        block->size = rounded;
    }
    return (u8 *)block + HEAD;
}

void give(void *pointer)
{
    if (!pointer)
        return;
    struct block *block = (struct block *)((u8 *)pointer - HEAD);
    u64 rounded, place = class_of(block->size, &rounded);
    block->next = freed[place];
    freed[place] = block;
}

static void *resize(void *pointer, u64 size)
{
    struct block *block = (struct block *)((u8 *)pointer - HEAD);
    u64 held = block->size, rounded;
    if (size <= held)
        return pointer;
    if (size > 1UL << 40)
        return 0;
    class_of(size, &rounded);
    if ((u8 *)pointer + held == top) { /* the last block grows where it is */
        if (!fresh(rounded - held))
            return 0;
        block->size = rounded;
        return pointer;
    }
    void *moved = take(size);
    if (moved) {
        __builtin_memcpy(moved, pointer, held);
        give(pointer);
    }
    return moved;
}

/* What the proved code calls for memory: whether there is some, and where. Blocks are aligned to 16 bytes. */
struct tried {
    u64 given;
    void *at;
};

static struct tried answer(void *at)
{
    static u8 nothing;
    struct tried tried = {at != 0, at ? at : &nothing};
    return tried;
}

struct tried rattle_alloc(u64 size, u64 align)
{
    return answer(take(size ? size : align));
}

struct tried rattle_realloc(void *pointer, u64 old, u64 size, u64 align)
{
    (void)old;
    return answer(resize(pointer, size ? size : align));
}

void rattle_dealloc(void *pointer)
{
    give(pointer);
}
