/*
 * Writes many events in one process, for a comparison with another writer.
 *
 * Each event comes on standard input as its kind, a byte; its fields, in the order of the writer's parameters, a bool as a byte; and a
 * 4-byte length and the bytes that the lent buffer has before the call. A record of kind 7 has as its fields the slot, in two bytes, and a
 * 4-byte length and the bytes of the record that is lent. To standard output go the 4 bytes that the writer gave; the buffer's bytes after
 * the call; and a 4-byte length and the dump of the record, empty where none was written. They are flushed before more is read. All numbers
 * are little-endian. The program ends with status 0 when its input does; with 3 if a byte outside the buffer was changed; else with 2.
 *
 * The writers are rev_write_opening and so on, unless -DPLAIN takes those of bench/plain.h.
 */
#include "rev.h"

#ifdef PLAIN
#include "plain.h"
#define WRITE(kind) plain_write_##kind
#else
#define WRITE(kind) rev_write_##kind
#endif

#define SERVED_ROOM 256
#include "served.h"

enum { TEXT = 4096, IN_SLOT = 7, FIELDS = 29, LENT = 256 };

static const size_t fields_length[1 + IN_SLOT] = {0, 12, 11, FIELDS, 2, 0, 4, 2};

static uint8_t text[TEXT];

/* The record that is lent to be put in a slot, of none for the other kinds. */
static uint8_t lent[LENT];
static size_t lent_len;

static uint64_t eight_bytes(const uint8_t *at)
{
    return four_bytes(at) | (uint64_t)four_bytes(at + 4) << 32;
}

/* The three parameters of a telephone number, which are 10 bytes. */
#define NUMBER(at) (at)[0], (at)[1], eight_bytes((at) + 2)

static uint32_t write_event(unsigned kind, const uint8_t *at, size_t room)
{
    switch (kind) {
    case 1:
        return WRITE(opening)(at[0], at[1], NUMBER(at + 2), out, room);
    case 2:
        return WRITE(request)(at[0], NUMBER(at + 1), out, room);
    case 3:
        return WRITE(message)(at[0], at[1], at[2], at[3], at[4], NUMBER(at + 5), NUMBER(at + 15), four_bytes(at + 25), out, room);
    case 4:
        return WRITE(access)(at[0], at[1], out, room);
    case 5:
        return WRITE(expiry)(out, room);
    case IN_SLOT:
        return WRITE(slot)((uint16_t)(at[0] | at[1] << 8), lent, lent_len, out, room);
    default:
        return WRITE(time)(four_bytes(at), out, room);
    }
}

/* The length of the dump of the record that stands in the buffer. A length that it claims past the room is left to be found there. */
static size_t dump(size_t room)
{
    size_t length = room < 2 ? room : rev_record_length(out);
    size_t dumped = rev_dump(out, length < room ? length : room, text, sizeof text);

    return dumped == REV_TOO_LONG ? 0 : dumped;
}

int main(void)
{
    uint8_t kind, fields[FIELDS];

    while (get(&kind, 1)) {
        size_t room, dumped;
        uint32_t given;

        if (kind < 1 || kind > IN_SLOT || !get(fields, fields_length[kind]))
            return 2;
        if ((kind == IN_SLOT && !get_bytes(lent, LENT, &lent_len)) || !get_bytes(out, SERVED_ROOM, &room))
            return 2;
        fill(0, GUARD);
        fill(GUARD + room, sizeof guarded);
        given = write_event(kind, fields, room);
        if (!stays(0, GUARD) || !stays(GUARD + room, sizeof guarded))
            return 3;
        dumped = given == REV_WRITTEN ? dump(room) : 0;
        if (!put_four(given) || !put(out, room) || !put_four((uint32_t)dumped) || !put(text, dumped) || fflush(stdout) != 0)
            return 2;
    }
    return feof(stdin) && !ferror(stdin) ? 0 : 2;
}
