/* The floor of any program that must see its whole input before the first byte of its output: reads all of standard input into memory
 * and writes it out. The least processor time and memory that such a program can take is taken as this one's. */
#include <errno.h>
#include <stdlib.h>
#include <unistd.h>

int main(void)
{
    size_t room = 1 << 16, held = 0;
    char *bytes = malloc(room);
    if (!bytes)
        return 6;
    for (;;) {
        if (held == room) {
            char *more = realloc(bytes, 2 * room);
            if (!more)
                return 6;
            bytes = more;
            room *= 2;
        }
        ssize_t got = read(0, bytes + held, room - held);
        if (got < 0 && errno == EINTR)
            continue;
        if (got < 0)
            return 4;
        if (got == 0)
            break;
        held += got;
    }
    for (size_t done = 0; done < held;) {
        ssize_t put = write(1, bytes + done, held - done);
        if (put < 0 && errno == EINTR)
            continue;
        if (put <= 0)
            return 5;
        done += put;
    }
    return 0;
}
