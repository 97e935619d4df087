/* Does what `armcaps WORDS` does, by the library: reads standard input, and writes the output or the line.
 *
 *     cc report.c $(pkg-config --cflags --libs armcaps) -o report
 *     ./report report < ../late-core.txt
 *
 * One argument has the words of the command; without any it is `report`.
 */
#include <armcaps.h>
#include <stdio.h>
#include <stdlib.h>
#include <string.h>

static uint8_t *read_all(FILE *file, size_t *length)
{
    size_t room = 65536;
    uint8_t *bytes = malloc(room);
    *length = 0;
    while (bytes != NULL) {
        *length += fread(bytes + *length, 1, room - *length, file);
        if (*length < room)
            return bytes;
        uint8_t *more = realloc(bytes, room *= 2);
        if (more == NULL)
            free(bytes);
        bytes = more;
    }
    return NULL;
}

int main(int count, char **words)
{
    const char *line = count > 1 ? words[1] : "report";
    size_t input_length, out_length, err_length, room = 1 << 16;
    uint8_t err[ARMCAPS_ERR_ROOM];
    uint8_t *input = read_all(stdin, &input_length);
    uint8_t *out = malloc(room);
    if (input == NULL || out == NULL)
        return ARMCAPS_NO_MEMORY;
    uint8_t status = armcaps_run((const uint8_t *)line, strlen(line), input, input_length, out, room, &out_length,
                                 err, sizeof err, &err_length);
    if (status == ARMCAPS_NO_ROOM) {
        free(out);
        out = malloc(room = out_length);
        if (out == NULL)
            return ARMCAPS_NO_MEMORY;
        status = armcaps_run((const uint8_t *)line, strlen(line), input, input_length, out, room, &out_length,
                             err, sizeof err, &err_length);
    }
    fwrite(out, 1, status == ARMCAPS_DONE ? out_length : 0, stdout);
    fwrite(err, 1, err_length, stderr);
    free(out);
    free(input);
    return status;
}
