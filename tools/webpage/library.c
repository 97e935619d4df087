/* A run in a page: armcaps_run, the call for C, which is proved with its contract (crates/armcaps_c), over the module's
 * own memory. A fresh instance of the module makes one run, by these calls in turn:
 *
 *   page_room(n)      n bytes of memory, or 0 where there are none
 *   page_run(..)      takes the words as one line, cut at spaces, and the input; gives the program's exit status
 *   page_out(), page_out_len(), page_err(), page_err_len()      where what it wrote is, and how long */

#include "heap.h"

#define EXPORT(name) __attribute__((export_name(name)))
#define LEAST_ROOM (256UL << 10)
#define LINE_ROOM 300UL

enum { TOO_LITTLE_ROOM = 5, NO_MEMORY = 6 };

u8 armcaps_run(u8 *words, u64 words_length, u8 *input, u64 input_length, u8 *out, u64 out_room, u64 *out_length,
               u8 *err, u64 err_room, u64 *err_length);

static u8 *out, line[LINE_ROOM];
static u64 out_length, line_length;

EXPORT("page_room") void *page_room(u64 size)
{
    return take(size);
}

/* Tells a want of memory, as the call itself does. */
static int no_memory(void)
{
    static const char told[] = "armcaps: want of memory\n";
    __builtin_memcpy(line, told, sizeof told - 1);
    out_length = 0, line_length = sizeof told - 1;
    return NO_MEMORY;
}

/* Makes the call with room for an output as long as its input, and once more where it wants more. */
EXPORT("page_run") int page_run(u8 *words, u64 words_length, u8 *input, u64 input_length)
{
    u64 room = input_length < LEAST_ROOM ? LEAST_ROOM : input_length;
    for (;;) {
        out = take(room);
        if (!out)
            return no_memory();
        int status = armcaps_run(words, words_length, input, input_length, out, room, &out_length, line, LINE_ROOM,
                                 &line_length);
        if (status != TOO_LITTLE_ROOM)
            return status;
        give(out);
        room = out_length;
    }
}

EXPORT("page_out") u8 *page_out(void)
{
    return out;
}

EXPORT("page_out_len") u64 page_out_len(void)
{
    return out_length;
}

EXPORT("page_err") u8 *page_err(void)
{
    return line;
}

EXPORT("page_err_len") u64 page_err_len(void)
{
    return line_length;
}
