/*
 * Reads and writes many parameters in one process, for a comparison with another reader and writer.
 *
 * Each question comes on standard input as a byte, 0 to read a parameter or 1 to write one; message and cause, a byte each, which the
 * writer does not take; a 4-byte length and the bytes of the parameter or the entry; and a 4-byte length and the bytes that the lent
 * buffer has before the call. To standard output go the 4 bytes that the function gave and the buffer's bytes after the call. They are
 * flushed before more is read. All numbers are little-endian. The program ends with status 0 when its input does; with 3 if a byte of the
 * input, or one outside the buffer, was changed; else with 2.
 *
 * The functions are rev_read_parameter and rev_write_parameter, unless -DPLAIN takes those of bench/plain.h.
 */
#ifdef PLAIN
#include "plain.h"
#define PARAMETER(does) plain_##does##_parameter
#else
#include "rev.h"
#define PARAMETER(does) rev_##does##_parameter
#endif

enum { MOST = 4096, READ = 0, WRITE = 1 };

#define SERVED_ROOM 4096
#include "served.h"

#include <stdlib.h>
#include <string.h>

static uint8_t input[MOST];

int main(void)
{
    uint8_t head[3];

    while (get(head, 1)) {
        size_t length, room;
        uint32_t given;
        uint8_t *lent;
        int same;

        if (head[0] > WRITE || !get(head + 1, 2) || !get_bytes(input, MOST, &length) || !get_bytes(out, SERVED_ROOM, &room))
            return 2;
        fill(0, GUARD);
        fill(GUARD + room, sizeof guarded);
        /* memory of just this length, so that a sanitizer sees what is read past its end */
        lent = malloc(length > 0 ? length : 1);
        if (lent == NULL)
            return 2;
        memcpy(lent, input, length);
        if (head[0] == READ)
            given = PARAMETER(read)(lent, length, head[1], head[2], out, room);
        else
            given = PARAMETER(write)(lent, length, out, room);
        same = memcmp(lent, input, length) == 0;
        free(lent);
        if (!same || !stays(0, GUARD) || !stays(GUARD + room, sizeof guarded))
            return 3;
        if (!put_four(given) || !put(out, room) || fflush(stdout) != 0)
            return 2;
    }
    return feof(stdin) && !ferror(stdin) ? 0 : 2;
}
