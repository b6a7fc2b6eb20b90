/*
 * A host: writes the events of a call one after another, saves them as an event file, and prints its listing.
 *
 *   write FILE [SLOT]
 *
 * The call is the worked one of the rules: the caller asks that the called user pay (case A), who accepts; they talk for a minute, and the
 * caller asks once more in vain. Where a slot is given, 0 to 63, each record is put in it, as on a board with many calls. The status is 0
 * where file and listing are whole, else 2.
 */
#include "rev.h"

#include <stdio.h>
#include <stdlib.h>
#include <string.h>

/* The numbers of docs/FORMAT.md that this call takes. */
enum { ORIGINATING = 0, INTERACTION_ALLOWED = 8, CASE_A = 1, CASE_B = 2, ANM = 2, RESULT = 2, SETUP = 1, CLEAR = 4 };

/* A telephone number, as three of a writer's parameters: whether it is international, how many digits it has, and its value. */
#define OWN_NUMBER false, 7, 5550100
#define CALLED_NUMBER false, 7, 5550123 /* abroad it would be true, 7, 5550123, which the dump shows as +5550123 */
#define NO_NUMBER false, 0, 0

/* The event file so far, and where its records stand: in a slot, or in none. */
struct journal {
    uint8_t bytes[REV_LONGEST];
    size_t length;
    int in_slot;
    uint16_t slot;
};

/* Adds a record to the journal if its writer has written it; gives whether it is there. */
static int add(struct journal *journal, uint32_t given, const uint8_t *record)
{
    uint8_t around[REV_RECORD];
    size_t length;

    if (REV_NUMBER(given) == REV_WRITTEN && journal->in_slot) {
        given = rev_write_slot(journal->slot, record, rev_record_length(record), around, sizeof around);
        record = around;
    }
    if (REV_NUMBER(given) == REV_BAD_FIELD) {
        fprintf(stderr, "field %u of a record is out of its range\n", (unsigned)REV_REST(given));
        return 0;
    }
    if (REV_NUMBER(given) != REV_WRITTEN) {
        fprintf(stderr, "a record is refused with %u\n", (unsigned)REV_NUMBER(given));
        return 0;
    }
    length = rev_record_length(record);
    if (length > sizeof journal->bytes - journal->length) {
        fprintf(stderr, "the file would have more than %u bytes\n", REV_LONGEST);
        return 0;
    }
    memcpy(journal->bytes + journal->length, record, length);
    journal->length += length;
    return 1;
}

static int write_call(struct journal *journal)
{
    uint8_t record[REV_RECORD];

    return add(journal, rev_write_opening(ORIGINATING, INTERACTION_ALLOWED, OWN_NUMBER, record, sizeof record), record) &&
           add(journal, rev_write_request(CASE_A, CALLED_NUMBER, record, sizeof record), record) &&
           add(journal, rev_write_time(8, record, sizeof record), record) &&
           add(journal, rev_write_message(ANM, 0, RESULT, SETUP, 0, NO_NUMBER, NO_NUMBER, 0, record, sizeof record), record) &&
           add(journal, rev_write_time(60, record, sizeof record), record) &&
           add(journal, rev_write_request(CASE_B, NO_NUMBER, record, sizeof record), record) &&
           add(journal, rev_write_access(CLEAR, 0, record, sizeof record), record);
}

/* Writes the bytes and closes the file, whose name is said if that fails. Only fclose tells whether all of them arrived. */
static int save(FILE *file, const char *name, const uint8_t *bytes, size_t length)
{
    int whole = file != NULL && fwrite(bytes, 1, length, file) == length;

    if ((file != NULL && fclose(file) != 0) || !whole) {
        perror(name);
        return 0;
    }
    return 1;
}

/* Digits alone, and a slot that the listing's row has. */
static int read_slot(const char *word, uint16_t *slot)
{
    unsigned long value;
    char *end;

    if (word[0] < '0' || word[0] > '9')
        return 0;
    value = strtoul(word, &end, 10);
    *slot = (uint16_t)value;
    return *end == '\0' && value < REV_SLOTS;
}

int main(int argc, char **argv)
{
    static struct journal journal;
    static uint8_t listing[4096];
    size_t length;

    journal.in_slot = argc == 3;
    if (argc < 2 || argc > 3 || (journal.in_slot && !read_slot(argv[2], &journal.slot))) {
        fprintf(stderr, "usage: write FILE [SLOT], with a slot of 0 to %u\n", REV_SLOTS - 1);
        return 2;
    }
    if (!write_call(&journal) || !save(fopen(argv[1], "wb"), argv[1], journal.bytes, journal.length))
        return 2;
    length = rev_listing(journal.bytes, journal.length, listing, sizeof listing);
    if (length == REV_TOO_LONG) {
        fprintf(stderr, "the listing has more than %zu bytes\n", sizeof listing);
        return 2;
    }
    return save(stdout, "standard output", listing, length) ? 0 : 2;
}
