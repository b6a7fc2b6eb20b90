/*
 * Lists many files in one process, for a comparison with another listing.
 *
 * Each file comes on standard input as a 4-byte little-endian length and its bytes. For each a 4-byte little-endian
 * length and the listing's bytes go to standard output, or the length 0xFFFFFFFF alone if the file is refused with 8;
 * they are flushed before more is read. The buffer has the 65,536 bytes of the listing program. The program ends with
 * status 0 when its input does; with 3 if a byte past the listing, or any byte in case of 8, was changed; else with 2.
 *
 * The listing is rev_listing, unless -DLISTING=plain_listing names another of its signature.
 */
#include "rev.h"

#include <stdio.h>
#include <stdlib.h>
#include <string.h>

#ifdef LISTING
size_t LISTING(const uint8_t *file, size_t file_len, uint8_t *out, size_t out_len);
#else
#define LISTING rev_listing
#endif

enum { ROOM = 65536, GUARD = 4096, FILLER = 0xEE };

static uint8_t out[ROOM + GUARD];
static uint8_t filler[ROOM + GUARD];

static uint32_t four_bytes(const uint8_t *at)
{
    return at[0] | (uint32_t)at[1] << 8 | (uint32_t)at[2] << 16 | (uint32_t)at[3] << 24;
}

static int answer(uint32_t length, size_t bytes)
{
    uint8_t head[4] = {length & 0xFF, length >> 8 & 0xFF, length >> 16 & 0xFF, length >> 24};

    return fwrite(head, 1, 4, stdout) == 4 && fwrite(out, 1, bytes, stdout) == bytes && fflush(stdout) == 0;
}

int main(void)
{
    uint8_t *file = NULL;
    uint8_t head[4];
    size_t got;

    memset(filler, FILLER, sizeof filler);
    memset(out, FILLER, sizeof out);
    while ((got = fread(head, 1, 4, stdin)) == 4) {
        size_t file_len = four_bytes(head);
        size_t length, changed;
        uint8_t *more = realloc(file, file_len + 1);

        if (more == NULL)
            return 2;
        file = more;
        if (fread(file, 1, file_len, stdin) != file_len)
            return 2;
        length = LISTING(file, file_len, out, ROOM);
        changed = length == REV_TOO_LONG ? 0 : length;
        if (changed > ROOM || memcmp(out + changed, filler, sizeof out - changed) != 0)
            return 3;
        if (!answer(length == REV_TOO_LONG ? 0xFFFFFFFF : (uint32_t)length, changed))
            return 2;
        memset(out, FILLER, changed);
    }
    free(file);
    return got == 0 && !ferror(stdin) ? 0 : 2;
}
