/* What the two parts in C of the page's module share: types, and the heap. All is in the module's own memory, and
 * nothing is imported. Built by clang for wasm64 without a C library. These parts are tested, not proved. */

typedef unsigned char u8;
typedef unsigned long u64;
_Static_assert(sizeof(u64) == 8 && sizeof(void *) == 8, "the module's memory has addresses of 64 bits");

/* A block of so many bytes, aligned to 16, or null where there is no memory. */
void *take(u64 size);

/* Gives a block back; null is none. */
void give(void *pointer);
