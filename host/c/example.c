/*
 * A host: reads an event file, prints its listing or its dump.
 *
 *   example [--dump] FILE [SIZE]
 *
 * The buffer has SIZE bytes, at most 16,777,216; where no size is given, it is doubled until the text fits. The status is 0 where the
 * text is printed, 1 where file or text is too long, 2 where something else went wrong.
 */
#include "rev.h"

#include <stdio.h>
#include <stdlib.h>
#include <string.h>

#define FIRST_SIZE 4096u
#define MOST 16777216u

/*
 * Digits alone, at most MOST. By itself strtoul also takes spaces and signs, and makes the largest number of -1. Of too many digits it
 * makes the largest number too, which is more than MOST.
 */
static int read_size(const char *word, size_t *size)
{
    unsigned long value;
    char *end;

    if (word[0] < '0' || word[0] > '9')
        return 0;
    value = strtoul(word, &end, 10);
    if (*end != '\0' || value > MOST)
        return 0;
    *size = value;
    return 1;
}

static int read_file(const char *name, uint8_t *file, size_t room, size_t *file_len)
{
    FILE *in = fopen(name, "rb");
    int failed;

    if (in == NULL) {
        perror(name);
        return 0;
    }
    *file_len = fread(file, 1, room, in);
    failed = ferror(in);
    if (failed)
        perror(name);
    if (fclose(in) != 0 && !failed) {
        perror(name);
        failed = 1;
    }
    return !failed;
}

/* Only fclose tells whether all of it arrived. */
static int print(const uint8_t *text, size_t length)
{
    if (fwrite(text, 1, length, stdout) != length || fclose(stdout) != 0) {
        perror("standard output");
        return 0;
    }
    return 1;
}

static int show(int dump, const char *name, const uint8_t *file, size_t file_len, size_t size, int fixed)
{
    for (;; size *= 2) {
        uint8_t *out = malloc(size > 0 ? size : 1); /* at size 0 too the library wants a pointer that is not null */
        size_t length;
        int printed;

        if (out == NULL) {
            fprintf(stderr, "there is no memory for a buffer of %zu bytes\n", size);
            return 2;
        }
        length = dump ? rev_dump(file, file_len, out, size) : rev_listing(file, file_len, out, size);
        if (length != REV_TOO_LONG) {
            printed = print(out, length);
            free(out);
            return printed ? 0 : 2;
        }
        free(out);
        if (file_len > REV_LONGEST) {
            fprintf(stderr, "%s: the file has more than %u bytes\n", name, REV_LONGEST);
            return 1;
        }
        if (fixed || size > MOST / 2) {
            fprintf(stderr, "%s: the text has more than the %zu bytes of the buffer\n", name, size);
            return 1;
        }
    }
}

int main(int argc, char **argv)
{
    static uint8_t file[REV_LONGEST + 1]; /* a byte more than a file may have, so that a longer one is noticed */
    int dump = argc > 1 && strcmp(argv[1], "--dump") == 0;
    int words = argc - 1 - dump; /* FILE and SIZE */
    int fixed = words == 2;
    size_t file_len, size = FIRST_SIZE;

    argv += 1 + dump;
    if (words < 1 || words > 2 || (fixed && !read_size(argv[1], &size))) {
        fprintf(stderr, "usage: example [--dump] FILE [SIZE], with a size of 0 to %u\n", MOST);
        return 2;
    }
    if (!read_file(argv[0], file, sizeof file, &file_len))
        return 2;
    return show(dump, argv[0], file, file_len, size, fixed);
}
