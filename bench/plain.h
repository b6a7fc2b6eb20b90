/* The listing of an event file, writers of its records, and a reader and a writer of the Remote operations parameter, in plain C. */
#ifndef PLAIN_H
#define PLAIN_H

#include <stdbool.h>
#include <stddef.h>
#include <stdint.h>

/*
 * Writes the listing of the event file at `file` to `out` and gives its length; bytes of `out` past that length stay as
 * they are. Gives 8, and changes no byte of `out`, if the file has more than 65,536 bytes or the listing more than
 * `out_len`. (8 is no length: the shortest listing has 12 bytes.) The two must not overlap.
 */
size_t plain_listing(const uint8_t *file, size_t file_len, uint8_t *out, size_t out_len);

/*
 * Each writes a record at the start of `out` and gives 0; bytes of `out` past the record stay as they are. Gives 3 if a field is out of its
 * range, and in the bits above its byte which is the first in the record's body, from 1; else 8 if the record has more than `out_len`
 * bytes. Then it changes no byte of `out`.
 */
uint32_t plain_write_opening(uint8_t role, uint8_t flags, bool own_international, uint8_t own_count, uint64_t own_value, uint8_t *out,
                             size_t out_len);
uint32_t plain_write_request(uint8_t request, bool called_international, uint8_t called_count, uint64_t called_value, uint8_t *out,
                             size_t out_len);
uint32_t plain_write_message(uint8_t message, uint8_t cause, uint8_t component, uint8_t item, uint8_t parts, bool calling_international,
                             uint8_t calling_count, uint64_t calling_value, bool called_international, uint8_t called_count,
                             uint64_t called_value, uint32_t duration, uint8_t *out, size_t out_len);
uint32_t plain_write_access(uint8_t told, uint8_t error, uint8_t *out, size_t out_len);
uint32_t plain_write_expiry(uint8_t *out, size_t out_len);
uint32_t plain_write_time(uint32_t seconds, uint8_t *out, size_t out_len);

/*
 * Writes the record of kind 7 that names `slot` and has the plain record at `record` inside, which ends where its own length says: what
 * follows it is not looked at. Gives 5, 6 or 7 where no whole plain record stands there; then it is as the others. The two must not overlap.
 */
uint32_t plain_write_slot(uint16_t slot, const uint8_t *record, size_t record_len, uint8_t *out, size_t out_len);

/*
 * Reads the whole parameter at `parameter` and writes an entry for each of its components to `out`, or one of no component: the identifier
 * in two bytes, of which 256 is none, and the record of kind 3 with this message and cause. Gives a number and in the bits above its byte
 * a place, a field or a length: 11 to 14 and the place; 3 and 1 where the message is out of its range, 3 and 2 where the cause is; 8 where
 * the entries have more than `out_len` bytes; else 0 and how many they have. Bytes of `out` past them stay as they are, all of them on a
 * refusal. The two must not overlap.
 */
uint32_t plain_read_parameter(const uint8_t *parameter, size_t parameter_len, uint8_t message, uint8_t cause, uint8_t *out, size_t out_len);

/*
 * Writes the parameter with the component of one entry to `out`. What follows the entry is not looked at. Gives 5, 6 or 7 where its record
 * cannot be read; 3 where it is of another kind or its component cannot be written, and in the bits above its byte which field of the
 * record's body is the first to blame, from 1, after them the identifier, and 0 for another kind; 8 where the parameter has more than
 * `out_len` bytes; else 0 and, in these bits, the parameter's length. For `out` the same holds.
 */
uint32_t plain_write_parameter(const uint8_t *entry, size_t entry_len, uint8_t *out, size_t out_len);

/* Whether a number has 1 to 15 digits and a value of so many. */
static inline bool plain_digits_fit(unsigned count, uint64_t value)
{
    static const uint64_t ten_to[16] = {
        1u,
        10u,
        100u,
        1000u,
        10000u,
        100000u,
        1000000u,
        10000000u,
        100000000u,
        1000000000u,
        10000000000u,
        100000000000u,
        1000000000000u,
        10000000000000u,
        100000000000000u,
        1000000000000000u,
    };
    return count >= 1 && count <= 15 && value < ten_to[count];
}

#endif
