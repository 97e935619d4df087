/* armcaps: what an arm64 machine of unequal cores may use, as one call over bytes in memory.
 *
 * What the call answers is proved: its contract is the record `Answers` in crates/armcaps_c/specs/Call.antt. What this
 * header says of pointers, lengths and ownership is the caller's part.
 */
#ifndef ARMCAPS_H
#define ARMCAPS_H

#include <stddef.h>
#include <stdint.h>

#ifdef __cplusplus
extern "C" {
#endif

/* What armcaps_run answers. Each but ARMCAPS_NO_TEXT, ARMCAPS_NO_ROOM and ARMCAPS_NO_MEMORY is the status with which
 * the program ends for the same words and the same input. The program's status 4 (a read fault) never comes. */
enum armcaps_status {
    ARMCAPS_DONE = 0,        /* out has the whole output, *out_length bytes */
    ARMCAPS_NO_TEXT = 1,     /* a word of the line is not UTF-8 */
    ARMCAPS_USAGE = 2,       /* the words are no command */
    ARMCAPS_REFUSED = 3,     /* the input is no machine text, or what follows the text is not what it says */
    ARMCAPS_NO_ROOM = 5,     /* out has too little room: *out_length says how much is wanted */
    ARMCAPS_NO_MEMORY = 6,   /* there is not enough memory */
    ARMCAPS_PANIC = 7,       /* a core stops the machine */
    ARMCAPS_NOT_PATCHED = 8, /* an entry of the table of alternatives is refused */
    ARMCAPS_NOT_READ = 9,    /* the core of `mrs` runs no program, or the word reads no register */
    ARMCAPS_NO_ELF = 10,     /* the image of `elf` is no ELF file of a kernel, or a selected entry is not loaded */
    ARMCAPS_NO_LABELS = 11,  /* the table of jump labels is outside the image, or an entry of it is refused */
    ARMCAPS_DIFFERS = 12     /* the second image of `audit` is not the patched one */
};

/* Runs a command of the program in memory.
 *
 * line, line_length    the words, cut at spaces, as "report" or "mrs 0 0xd5380400"; no NUL is wanted at the end
 * input, input_length  what the program would read: a machine text, and behind it the image where it names one
 * out, out_room        where the output goes; in every answer but ARMCAPS_DONE it is left as it was
 * out_length           gets how long the output is in ARMCAPS_DONE and ARMCAPS_NO_ROOM, and 0 in all others
 * err, err_room        where the line goes that the program would print on its error stream, with its line feed: as
 *                      much of it as there is room for; what stands behind is left as it was
 * err_length           gets how long that line is, also where it was cut: 0 in ARMCAPS_DONE, ARMCAPS_NO_TEXT and
 *                      ARMCAPS_NO_ROOM; ARMCAPS_ERR_ROOM bytes are room for every line
 *
 * All memory is the caller's; what the call takes for itself is freed before it returns. No buffer may overlap another,
 * nor a length. A pointer may be any address but null where its length is 0. The call has no state: threads may call at
 * the same time, each with buffers of its own. It prints nothing, does not end the process, and calls nothing back.
 *
 * For example:
 *
 *     size_t out_length, err_length;
 *     uint8_t status = armcaps_run((const uint8_t *)"report", 6, text, text_length, out, sizeof out, &out_length,
 *                                  err, sizeof err, &err_length);
 */
#define ARMCAPS_ERR_ROOM 300

uint8_t armcaps_run(const uint8_t *line, size_t line_length,
                    const uint8_t *input, size_t input_length,
                    uint8_t *out, size_t out_room, size_t *out_length,
                    uint8_t *err, size_t err_room, size_t *err_length);

#ifdef __cplusplus
}
#endif

#endif
