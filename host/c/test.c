/*
 * What the header promises, seen from C, of the listing and the dump of each file named: a buffer of every size from 0 to past the
 * text, with guard bytes on both sides. Too small a buffer gives 8 and stays as it was; else the text is there, and what lies past it
 * stays; the same file gives the same twice. The file lies in memory that cannot be written, and ends where memory that cannot be read
 * begins.
 *
 * And of the writers, for events of each kind, in range and not: rooms of every size from 0 to past the record, with the same guards. A bad
 * field gives 3 and the ordinal of the first in every room and changes nothing; else a room too small gives 8 and changes nothing, and
 * another has the record. Of a number that was written, dump and listing show the nature.
 *
 * And of the writer that puts a record in a slot, with the same guards and rooms and a record that cannot be written, which ends where
 * memory that cannot be read begins: 5, 6 or 7, then 3 with its field, in every room, and nothing is changed; else as the others. What was
 * written, dump and listing show with its slot.
 *
 * And of numbers, all pairs of some: they are the same where nature, count and value are, and nowhere else.
 *
 * And of parameters, read and written, with the same guards and rooms: a refusal gives its number and place in every room and changes
 * nothing; else a room too small gives 8, and another has the entries, or the parameter, and every other byte as it was.
 */
#define _DEFAULT_SOURCE /* MAP_ANONYMOUS */

#include "rev.h"

#include <stdio.h>
#include <stdlib.h>
#include <string.h>
#include <sys/mman.h>

/* PAGES is a multiple of the size of a page, and more than a file has */
enum { ROOM = 4 << 20, GUARD = 64, PAST = 16, PAGES = 2 << 16, MOST_ROOM = 46 };

typedef size_t view(const uint8_t *file, size_t file_len, uint8_t *out, size_t out_len);

static const struct {
    const char *name;
    view *text_of;
    size_t shortest; /* the text of the file of no bytes */
} views[] = {{"listing", rev_listing, 12}, {"dump", rev_dump, 10}};

static uint8_t whole[ROOM], guarded[GUARD + ROOM + GUARD];
static size_t buffers;

/* A byte that no text has, different at each place. */
static uint8_t filler(size_t i)
{
    return (uint8_t)(0x80 | (i * 37 & 0x7F));
}

static int stays(size_t from, size_t to)
{
    for (size_t i = from; i < to; i++)
        if (guarded[i] != filler(i))
            return 0;
    return 1;
}

static int holds(view *text_of, const uint8_t *file, size_t file_len, size_t length, size_t room)
{
    size_t end = GUARD + room + GUARD, want = length <= room ? length : REV_TOO_LONG, text = length <= room ? length : 0;

    buffers++;
    for (size_t i = 0; i < end; i++)
        guarded[i] = filler(i);
    for (int twice = 0; twice < 2; twice++)
        if (text_of(file, file_len, guarded + GUARD, room) != want || memcmp(guarded + GUARD, whole, text) != 0 ||
            !stays(0, GUARD) || !stays(GUARD + text, end))
            return 0;
    return 1;
}

/* A file too long is refused with any buffer; another has a text, which every buffer gets that can hold it. */
static int kept(const char *name, const uint8_t *file, size_t file_len)
{
    for (size_t v = 0; v < sizeof views / sizeof views[0]; v++) {
        size_t length = ROOM + 1, most = GUARD;

        if (file_len <= REV_LONGEST) {
            length = views[v].text_of(file, file_len, whole, ROOM);
            most = length + PAST;
            if (length < views[v].shortest || (file_len == 0 && length != views[v].shortest)) {
                printf("%s: a %s of %zu bytes, where the shortest has %zu\n", name, views[v].name, length, views[v].shortest);
                return 0;
            }
        }
        for (size_t room = 0; room <= ROOM; room = room == most ? ROOM : room + 1)
            if (!holds(views[v].text_of, file, file_len, length, room)) {
                printf("%s: the %s in a buffer of %zu bytes is not as promised\n", name, views[v].name, room);
                return 0;
            }
    }
    return 1;
}

/* ---- The writers ---- */

enum kind { OPENING = 1, REQUEST, MESSAGE, ACCESS, EXPIRY, TIME };

struct number {
    bool international;
    uint8_t count;
    uint64_t value;
};

/* An event, with its record where all its fields are in range, else with the ordinal of the first that is not. */
struct event {
    enum kind kind;
    uint8_t item; /* the role, the request, the message, or what the access told */
    uint8_t flags, cause, component, detail, parts;
    struct number own, calling, called;
    uint32_t seconds;
    uint8_t record[REV_RECORD];
    uint8_t bad;
};

#define HOME {false, 7, 5550100}
#define ABROAD {true, 7, 5550100}
#define ROOM_23 {false, 7, 5550123}
#define MOST {false, 15, 999999999999999}
#define MOST_ABROAD {true, 15, 999999999999999}
#define NO_DIGITS_ABROAD {true, 0, 0}
#define HOME_BYTES 7, 0x14, 0xB0, 0x54, 0, 0, 0, 0, 0
#define ABROAD_BYTES 0x87, 0x14, 0xB0, 0x54, 0, 0, 0, 0, 0
#define MOST_BYTES 15, 0xFF, 0x7F, 0xC6, 0xA4, 0x7E, 0x8D, 3, 0
#define MOST_ABROAD_BYTES 0x8F, 0xFF, 0x7F, 0xC6, 0xA4, 0x7E, 0x8D, 3, 0

static const struct event events[] = {
    {OPENING, .item = 0, .flags = 8, .own = HOME, .record = {13, 0, 1, 0, 0, 8, HOME_BYTES}},
    {OPENING, .item = 0, .flags = 8, .own = ABROAD, .record = {13, 0, 1, 0, 0, 8, ABROAD_BYTES}},
    {OPENING, .item = 1, .flags = 31, .own = MOST, .record = {13, 0, 1, 0, 1, 31, MOST_BYTES}},
    {OPENING, .item = 1, .flags = 31, .own = MOST_ABROAD, .record = {13, 0, 1, 0, 1, 31, MOST_ABROAD_BYTES}},
    {OPENING, .item = 2, .flags = 8, .own = HOME, .bad = 1},
    {OPENING, .item = 0, .flags = 32, .own = HOME, .bad = 2},
    {OPENING, .item = 0, .flags = 32, .bad = 2},
    {OPENING, .item = 0, .flags = 8, .bad = 3},
    {OPENING, .item = 0, .flags = 8, .own = NO_DIGITS_ABROAD, .bad = 3},
    {OPENING, .item = 0, .flags = 8, .own = {false, 16, 0}, .bad = 3},
    {OPENING, .item = 0, .flags = 8, .own = {true, 16, 0}, .bad = 3},
    {OPENING, .item = 0, .flags = 8, .own = {false, 1, 10}, .bad = 3},
    {OPENING, .item = 0, .flags = 8, .own = {true, 1, 10}, .bad = 3},
    {OPENING, .item = 0, .flags = 8, .own = {false, 15, 1000000000000000}, .bad = 3},
    {OPENING, .item = 0, .flags = 8, .own = {true, 15, 1000000000000000}, .bad = 3},
    {OPENING, .item = 0, .flags = 8, .own = {false, 0x80, 0}, .bad = 3}, /* count bytes are no counts */
    {OPENING, .item = 0, .flags = 8, .own = {true, 0x80, 0}, .bad = 3},
    {OPENING, .item = 0, .flags = 8, .own = {false, 0x87, 5550100}, .bad = 3},
    {OPENING, .item = 0, .flags = 8, .own = {true, 0x87, 5550100}, .bad = 3},
    {OPENING, .item = 255, .flags = 255, .own = {false, 255, UINT64_MAX}, .bad = 1},
    {OPENING, .item = 255, .flags = 255, .own = {true, 255, UINT64_MAX}, .bad = 1},

    {REQUEST, .item = 0, .called = {false, 1, 0}, .record = {12, 0, 2, 0, 0, 1}},
    {REQUEST, .item = 0, .called = {true, 1, 0}, .record = {12, 0, 2, 0, 0, 0x81}},
    {REQUEST, .item = 1, .called = ROOM_23, .record = {12, 0, 2, 0, 1, 7, 0x2B, 0xB0, 0x54}},
    {REQUEST, .item = 2, .record = {12, 0, 2, 0, 2}},
    {REQUEST, .item = 3, .record = {12, 0, 2, 0, 3}},
    {REQUEST, .item = 4, .bad = 1},
    {REQUEST, .item = 1, .bad = 2},
    {REQUEST, .item = 1, .called = NO_DIGITS_ABROAD, .bad = 2},
    {REQUEST, .item = 1, .called = {false, 0x87, 5550123}, .bad = 2},
    {REQUEST, .item = 2, .called = ROOM_23, .bad = 2},
    {REQUEST, .item = 2, .called = NO_DIGITS_ABROAD, .bad = 2},
    {REQUEST, .item = 2, .called = {false, 0x80, 0}, .bad = 2},
    {REQUEST, .item = 3, .called = NO_DIGITS_ABROAD, .bad = 2},
    {REQUEST, .item = 3, .called = {false, 0, 1}, .bad = 2},
    {REQUEST, .item = 3, .called = {false, 1, 0}, .bad = 2},

    {MESSAGE, .item = 2, .component = 2, .detail = 1, .record = {7, 0, 3, 0, 2, 0, 2, 1, 0}},
    {MESSAGE, .item = 4, .cause = 127, .component = 3, .detail = 255, .record = {7, 0, 3, 0, 4, 127, 3, 255, 0}},
    {MESSAGE, .item = 5, .component = 4, .parts = 15, .record = {7, 0, 3, 0, 5, 0, 4, 0, 15}},
    {MESSAGE, .item = 1, .parts = 16, .calling = HOME, .record = {16, 0, 3, 0, 1, 0, 0, 0, 16, HOME_BYTES}},
    {MESSAGE, .item = 1, .parts = 16, .calling = ABROAD, .record = {16, 0, 3, 0, 1, 0, 0, 0, 16, ABROAD_BYTES}},
    {MESSAGE, .item = 1, .parts = 32, .called = MOST, .record = {16, 0, 3, 0, 1, 0, 0, 0, 32, MOST_BYTES}},
    {MESSAGE, .item = 1, .parts = 32, .called = MOST_ABROAD, .record = {16, 0, 3, 0, 1, 0, 0, 0, 32, MOST_ABROAD_BYTES}},
    {MESSAGE, .item = 1, .parts = 48, .calling = ABROAD, .called = HOME,
     .record = {25, 0, 3, 0, 1, 0, 0, 0, 48, ABROAD_BYTES, HOME_BYTES}},
    {MESSAGE, .item = 3, .parts = 64, .seconds = UINT32_MAX, .record = {11, 0, 3, 0, 3, 0, 0, 0, 64, 255, 255, 255, 255}},
    {MESSAGE, .item = 5, .component = 2, .detail = 3, .parts = 127, .calling = HOME, .called = MOST, .seconds = 40,
     .record = {29, 0, 3, 0, 5, 0, 2, 3, 127, HOME_BYTES, MOST_BYTES, 40}},
    {MESSAGE, .item = 5, .component = 2, .detail = 3, .parts = 127, .calling = ABROAD, .called = MOST_ABROAD, .seconds = 40,
     .record = {29, 0, 3, 0, 5, 0, 2, 3, 127, ABROAD_BYTES, MOST_ABROAD_BYTES, 40}},
    {MESSAGE, .item = 0, .bad = 1},
    {MESSAGE, .item = 6, .bad = 1},
    {MESSAGE, .item = 5, .cause = 128, .bad = 2},
    {MESSAGE, .item = 5, .component = 5, .bad = 3},
    {MESSAGE, .item = 5, .component = 255, .detail = 1, .bad = 3},
    {MESSAGE, .item = 5, .component = 0, .detail = 1, .bad = 4},
    {MESSAGE, .item = 5, .component = 1, .detail = 0, .bad = 4},
    {MESSAGE, .item = 5, .component = 2, .detail = 4, .bad = 4},
    {MESSAGE, .item = 5, .component = 4, .detail = 1, .bad = 4},
    {MESSAGE, .item = 5, .parts = 4, .bad = 5},
    {MESSAGE, .item = 5, .parts = 128, .bad = 5},
    {MESSAGE, .item = 5, .parts = 16, .bad = 6},
    {MESSAGE, .item = 5, .parts = 16, .calling = NO_DIGITS_ABROAD, .bad = 6},
    {MESSAGE, .item = 5, .parts = 16, .calling = {false, 0x80, 0}, .bad = 6},
    {MESSAGE, .item = 5, .parts = 32, .called = NO_DIGITS_ABROAD, .bad = 6},
    {MESSAGE, .item = 5, .parts = 32, .called = {true, 0x8F, 0}, .bad = 6},
    {MESSAGE, .item = 5, .calling = NO_DIGITS_ABROAD, .bad = 5},
    {MESSAGE, .item = 5, .called = NO_DIGITS_ABROAD, .bad = 5},
    {MESSAGE, .item = 5, .parts = 32, .called = {false, 15, 1000000000000000}, .bad = 6},
    {MESSAGE, .item = 5, .parts = 32, .calling = HOME, .called = HOME, .bad = 5},
    {MESSAGE, .item = 5, .parts = 16, .calling = HOME, .called = {false, 0, 1}, .bad = 5},
    {MESSAGE, .item = 5, .parts = 48, .calling = HOME, .called = HOME, .seconds = 1, .bad = 5},
    {MESSAGE, .item = 5, .parts = 48, .calling = HOME, .called = {false, 16, 0}, .bad = 7},
    {MESSAGE, .item = 5, .parts = 48, .calling = {false, 16, 0}, .called = {false, 16, 0}, .bad = 6},
    {MESSAGE, .item = 5, .parts = 32, .calling = HOME, .called = {false, 16, 0}, .bad = 5}, /* not named, before what is */
    {MESSAGE, .item = 5, .parts = 16, .calling = {false, 16, 0}, .called = HOME, .bad = 5},
    {MESSAGE, .item = 6, .cause = 128, .component = 5, .detail = 9, .parts = 132, .calling = HOME, .bad = 1},
    {MESSAGE, .item = 5, .cause = 128, .component = 5, .detail = 9, .parts = 132, .calling = HOME, .bad = 2},
    {MESSAGE, .item = 5, .cause = 0, .component = 5, .detail = 9, .parts = 132, .calling = HOME, .bad = 3},
    {MESSAGE, .item = 5, .cause = 0, .component = 1, .detail = 9, .parts = 132, .calling = HOME, .bad = 4},

    {ACCESS, .item = 1, .record = {4, 0, 4, 0, 1, 0}},
    {ACCESS, .item = 2, .detail = 255, .record = {4, 0, 4, 0, 2, 255}},
    {ACCESS, .item = 5, .record = {4, 0, 4, 0, 5, 0}},
    {ACCESS, .item = 0, .bad = 1},
    {ACCESS, .item = 6, .bad = 1},
    {ACCESS, .item = 4, .detail = 1, .bad = 2},
    {ACCESS, .item = 6, .detail = 1, .bad = 1},

    {EXPIRY, .record = {2, 0, 5, 0}},

    {TIME, .seconds = 0, .record = {6, 0, 6, 0, 0, 0, 0, 0}},
    {TIME, .seconds = 86400, .record = {6, 0, 6, 0, 0x80, 0x51, 1, 0}},
    {TIME, .seconds = 86401, .bad = 1},
    {TIME, .seconds = UINT32_MAX, .bad = 1},
};

enum { EVENTS = sizeof events / sizeof events[0] };

/* A number, as three of a writer's parameters. */
#define NUMBER(number) (number).international, (number).count, (number).value

static uint32_t write_event(const struct event *e, uint8_t *out, size_t room)
{
    switch (e->kind) {
    case OPENING:
        return rev_write_opening(e->item, e->flags, NUMBER(e->own), out, room);
    case REQUEST:
        return rev_write_request(e->item, NUMBER(e->called), out, room);
    case MESSAGE:
        return rev_write_message(e->item, e->cause, e->component, e->detail, e->parts, NUMBER(e->calling), NUMBER(e->called), e->seconds,
                                 out, room);
    case ACCESS:
        return rev_write_access(e->item, e->detail, out, room);
    case EXPIRY:
        return rev_write_expiry(out, room);
    default:
        return rev_write_time(e->seconds, out, room);
    }
}

/* An event in a room: the number, the record or nothing of it, and what lies past it and outside; twice alike. */
static int writes(const struct event *event, size_t room)
{
    int good = event->bad == 0;
    size_t length = good ? rev_record_length(event->record) : 0, end = GUARD + room + GUARD;
    uint32_t want = !good ? REV_BAD_FIELD + 256u * event->bad : length <= room ? REV_WRITTEN : REV_TOO_LONG;
    size_t written = want == REV_WRITTEN ? length : 0;

    buffers++;
    for (size_t i = 0; i < end; i++)
        guarded[i] = filler(i);
    for (int twice = 0; twice < 2; twice++)
        if (write_event(event, guarded + GUARD, room) != want || memcmp(guarded + GUARD, event->record, written) != 0 ||
            !stays(0, GUARD) || !stays(GUARD + written, end))
            return 0;
    return 1;
}

static int writers_keep(void)
{
    for (size_t i = 0; i < EVENTS; i++)
        for (size_t room = 0; room <= MOST_ROOM; room++)
            if (!writes(&events[i], room)) {
                printf("event %zu, of kind %d: what is written into %zu bytes is not as promised\n", i, (int)events[i].kind, room);
                return 0;
            }
    return 1;
}

/* ---- Numbers, read back ---- */

static int is_text(view *text_of, const uint8_t *file, size_t file_len, const char *wanted)
{
    size_t length = text_of(file, file_len, whole, ROOM);

    return length == strlen(wanted) && memcmp(whole, wanted, length) == 0;
}

/*
 * A case A in transfer mode, to a room at home or abroad, by a caller who is either, and a message with both numbers: what was written is
 * dumped with the nature of each, and the IAM has that of the caller. Any value but 0 says international.
 */
static int numbers_read_back(void)
{
    static const unsigned natures[] = {0, 1, 2, 0x80, 0x100, 0x80000000};
    enum { NATURES = sizeof natures / sizeof natures[0] };

    for (size_t i = 0; i < NATURES * NATURES; i++) {
        unsigned own = natures[i / NATURES], called = natures[i % NATURES];
        const char *own_sign = own ? "+" : "", *called_sign = called ? "+" : "";
        uint8_t file[3 * REV_RECORD];
        size_t length = 0;
        char dump[256], listing[256];

        if (rev_write_opening(0, 9, own, 7, 5550100, file, REV_RECORD) != REV_WRITTEN)
            return 0;
        length += rev_record_length(file);
        if (rev_write_request(1, called, 3, 23, file + length, REV_RECORD) != REV_WRITTEN)
            return 0;
        length += rev_record_length(file + length);
        if (rev_write_message(1, 0, 0, 0, 48, own, 1, 0, called, 15, 1, 0, file + length, REV_RECORD) != REV_WRITTEN)
            return 0;
        length += rev_record_length(file + length);
        snprintf(dump, sizeof dump,
                 "RECORDS 3\n1 0 OPENING originating transfer,interaction %s5550100\n2 15 REQUEST A %s023\n"
                 "3 29 IAM 0 CALLING %s0 CALLED %s000000000000001\n",
                 own_sign, called_sign, own_sign, called_sign);
        snprintf(listing, sizeof listing,
                 "REV 1\n1 0 NULL IDLE 0 0 0\n2 0 SETUP WAIT-SETUP 0 0 0\n> IAM INVOKE SETUP TRANSFER CALLING %s5550100\n"
                 "3 1 SETUP WAIT-SETUP 0 0 0\nEND 3\n",
                 own_sign);
        if (!is_text(rev_dump, file, length, dump) || !is_text(rev_listing, file, length, listing)) {
            printf("an own number of nature %u and a called one of nature %u are not read back\n", own, called);
            return 0;
        }
    }
    return 1;
}

/* ---- Slots ---- */

/* A record that is lent with a slot, and what is wanted: the record of kind 7, or what is given where none is written. */
struct in_slot {
    uint16_t slot;
    size_t lent_len;
    uint8_t lent[REV_RECORD + 4];
    uint32_t refusal;
    uint8_t record[REV_RECORD];
};

#define LONGEST_RECORD 29, 0, 3, 0, 5, 0, 2, 3, 127, HOME_BYTES, MOST_ABROAD_BYTES, 40, 0, 0, 0
#define TIME_60 6, 0, 6, 0, 60, 0, 0, 0

static const struct in_slot in_slots[] = {
    {0, 4, {2, 0, 5, 0}, 0, {8, 0, 7, 0, 0, 0, 2, 0, 5, 0}},
    {5, 8, {TIME_60}, 0, {12, 0, 7, 0, 5, 0, TIME_60}},
    {63, 31, {LONGEST_RECORD}, 0, {35, 0, 7, 0, 63, 0, LONGEST_RECORD}},
    {64, 8, {TIME_60}, 0, {12, 0, 7, 0, 64, 0, TIME_60}}, /* no slot of the listing's row, and one all the same */
    {256, 8, {TIME_60}, 0, {12, 0, 7, 0, 0, 1, TIME_60}},
    {65535, 8, {TIME_60}, 0, {12, 0, 7, 0, 255, 255, TIME_60}},
    {5, 9, {TIME_60, 2}, 0, {12, 0, 7, 0, 5, 0, TIME_60}}, /* what follows is not looked at */
    {5, 12, {TIME_60, 2, 0, 5, 0}, 0, {12, 0, 7, 0, 5, 0, TIME_60}},
    {5, 0, {0}, 5, {0}},
    {5, 1, {2}, 5, {0}},
    {5, 2, {2, 0}, 5, {0}},
    {5, 3, {2, 0, 5}, 5, {0}},
    {5, 7, {TIME_60}, 5, {0}},
    {5, 30, {LONGEST_RECORD}, 5, {0}},
    {5, 4, {0, 0, 5, 0}, 6, {0}},
    {5, 4, {1, 0, 5, 0}, 6, {0}},
    {5, 2, {30, 0}, 6, {0}}, /* no plain record is so long, and one of kind 7 does not belong inside */
    {5, 4, {30, 0, 7, 0}, 6, {0}},
    {5, 37, {35, 0, 7, 0, 63, 0, LONGEST_RECORD}, 6, {0}},
    {5, 4, {2, 1, 5, 0}, 6, {0}},
    {5, 5, {3, 0, 5, 0, 0}, 6, {0}},
    {5, 9, {7, 0, 3, 0, 5, 0, 0, 0, 16}, 6, {0}},
    {5, 8, {6, 0, 3, 0, 5, 0, 0, 0}, 6, {0}},
    {5, 4, {2, 0, 0, 0}, 7, {0}},
    {5, 4, {2, 0, 7, 0}, 7, {0}},
    {5, 10, {8, 0, 7, 0, 0, 0, 2, 0, 5, 0}, 7, {0}},
    {5, 4, {2, 0, 5, 1}, 7, {0}},
    {5, 5, {3, 0, 9, 0, 0}, 7, {0}}, /* before the length */
    {5, 8, {6, 0, 6, 0, 0x81, 0x51, 1, 0}, REV_BAD_FIELD + 256 * 1, {0}},
    {65535, 8, {6, 0, 6, 0, 0x81, 0x51, 1, 0}, REV_BAD_FIELD + 256 * 1, {0}},
    {5, 6, {4, 0, 4, 0, 4, 1}, REV_BAD_FIELD + 256 * 2, {0}},
    {5, 15, {13, 0, 1, 0, 0, 32, 0}, REV_BAD_FIELD + 256 * 2, {0}},
    {5, 15, {13, 0, 1, 0, 1, 8, 0}, REV_BAD_FIELD + 256 * 3, {0}},
    {5, 14, {12, 0, 2, 0, 2, HOME_BYTES}, REV_BAD_FIELD + 256 * 2, {0}},
    {5, 9, {7, 0, 3, 0, 6, 128, 5, 9, 132}, REV_BAD_FIELD + 256 * 1, {0}},
    {5, 9, {7, 0, 3, 0, 5, 0, 4, 1, 132}, REV_BAD_FIELD + 256 * 4, {0}},
    {5, 18, {16, 0, 3, 0, 5, 0, 0, 0, 32, 16}, REV_BAD_FIELD + 256 * 6, {0}},
    {5, 27, {25, 0, 3, 0, 5, 0, 0, 0, 48, HOME_BYTES, 16}, REV_BAD_FIELD + 256 * 7, {0}},
};

enum { IN_SLOTS = sizeof in_slots / sizeof in_slots[0] };

static const uint8_t *lend(uint8_t *pages, const uint8_t *bytes, size_t length);

/* A record put in a slot, in a room: the number, the record or nothing of it, and what lies past it and outside; twice alike. */
static int puts_in_slot(const struct in_slot *s, const uint8_t *lent, size_t room)
{
    size_t length = s->refusal == 0 ? rev_record_length(s->record) : 0, end = GUARD + room + GUARD;
    uint32_t want = s->refusal != 0 ? s->refusal : length <= room ? REV_WRITTEN : REV_TOO_LONG;
    size_t written = want == REV_WRITTEN ? length : 0;

    buffers++;
    for (size_t i = 0; i < end; i++)
        guarded[i] = filler(i);
    for (int twice = 0; twice < 2; twice++)
        if (rev_write_slot(s->slot, lent, s->lent_len, guarded + GUARD, room) != want || memcmp(guarded + GUARD, s->record, written) != 0 ||
            !stays(0, GUARD) || !stays(GUARD + written, end))
            return 0;
    return 1;
}

/* Those, and each record of an event in range. */
static int slots_keep(uint8_t *pages)
{
    for (size_t i = 0; i < IN_SLOTS + EVENTS; i++) {
        struct in_slot s = i < IN_SLOTS ? in_slots[i] : (struct in_slot){.slot = 0x0102};
        const uint8_t *lent;

        if (i >= IN_SLOTS) {
            const struct event *e = &events[i - IN_SLOTS];

            if (e->bad != 0)
                continue;
            s.lent_len = rev_record_length(e->record);
            memcpy(s.lent, e->record, s.lent_len);
            memcpy(s.record, (uint8_t[]){(uint8_t)(s.lent_len + 4), 0, 7, 0, 2, 1}, 6);
            memcpy(s.record + 6, e->record, s.lent_len);
        }
        lent = lend(pages, s.lent, s.lent_len);
        for (size_t room = 0; room <= MOST_ROOM; room++)
            if (!puts_in_slot(&s, lent, room)) {
                printf("record %zu in slot %u: what is written into %zu bytes is not as promised\n", i, s.slot, room);
                return 0;
            }
    }
    return 1;
}

/* A record in a slot, at the end of a file that has room for it; gives the length of the file with it, or 0. */
static size_t add_in_slot(uint8_t *file, size_t length, uint16_t slot, const uint8_t *record)
{
    if (rev_write_slot(slot, record, rev_record_length(record), file + length, REV_RECORD) != REV_WRITTEN)
        return 0;
    return length + rev_record_length(file + length);
}

/*
 * Calls at two slots and a plain record, which is slot 0's: an opening that is told 20 where one is open, one that begins anew where it has
 * cleared, and the first slot that is not there. Dump and listing show them with their slots.
 */
static int slots_read_back(void)
{
    static const uint8_t originating[] = {13, 0, 1, 0, 0, 8, HOME_BYTES}, destination[] = {13, 0, 1, 0, 1, 8, ABROAD_BYTES},
                         basic[] = {12, 0, 2, 0, 0, HOME_BYTES}, clear[] = {4, 0, 4, 0, 4, 0}, expiry[] = {2, 0, 5, 0};
    static const struct {
        uint16_t slot;
        const uint8_t *record;
    } steps[] = {{63, originating}, {63, basic}, {63, destination}, {63, clear}, {63, destination}, {REV_SLOTS, originating}, {0, expiry}};
    static const char dump[] = "RECORDS 8\n1 0 OPENING originating interaction 5550100\n"
                               "2 15 SLOT 63 OPENING originating interaction 5550100\n3 36 SLOT 63 REQUEST BASIC 5550100\n"
                               "4 56 SLOT 63 OPENING destination interaction +5550100\n5 77 SLOT 63 ACCESS CLEAR 0\n"
                               "6 89 SLOT 63 OPENING destination interaction +5550100\n"
                               "7 110 SLOT 64 OPENING originating interaction 5550100\n8 131 SLOT 0 EXPIRY\n";
    static const char listing[] = "REV 1\n1 0 0 NULL IDLE 0 0 0\n2 63 0 NULL IDLE 0 0 0\n3 63 0 SETUP IDLE 0 0 0\n> IAM\n"
                                  "4 63 20 SETUP IDLE 0 0 0\n5 63 0 CLEARED IDLE 0 0 0\n> REL 16\n6 63 0 NULL IDLE 0 0 0\n"
                                  "7 64 19 NONE IDLE 0 0 0\n8 0 15 NULL IDLE 0 0 0\nEND 8\n";
    uint8_t file[8 * REV_RECORD];
    size_t length = sizeof originating;

    memcpy(file, originating, length);
    for (size_t i = 0; i < sizeof steps / sizeof steps[0] && length > 0; i++)
        length = add_in_slot(file, length, steps[i].slot, steps[i].record);
    if (length == 0 || !is_text(rev_dump, file, length, dump) || !is_text(rev_listing, file, length, listing)) {
        printf("records in slots are not read back\n");
        return 0;
    }
    return 1;
}

/* ---- Room for every text ---- */

/*
 * The longest lines without actions, again and again: two meters of eight digits, and slots that the last record alone brings. They have
 * room in REV_ROOM, and not in half of it.
 */
static int room_is_enough(void)
{
    static const uint8_t opening[] = {13, 0, 1, 0, 0, 8, HOME_BYTES}, basic[] = {12, 0, 2, 0, 0, HOME_BYTES},
                         answer[] = {7, 0, 3, 0, 2, 0, 0, 0, 0}, day[] = {6, 0, 6, 0, 0x80, 0x51, 1, 0},
                         rest[] = {12, 0, 2, 0, 2, 0, 0, 0, 0, 0, 0, 0, 0, 0}, accepted[] = {7, 0, 3, 0, 5, 0, 2, 2, 0},
                         expiry[] = {2, 0, 5, 0}, elsewhere[] = {8, 0, 7, 0, REV_SLOTS, 0, 2, 0, 5, 0};
    enum { DAYS = 116 };
    static uint8_t file[REV_LONGEST], text[REV_ROOM];
    size_t length = 0, given;

#define ADD(record) (memcpy(file + length, record, sizeof(record)), length += sizeof(record))
    ADD(opening);
    ADD(basic);
    ADD(answer);
    for (int i = 0; i < DAYS; i++)
        ADD(day);
    ADD(rest);
    ADD(accepted);
    for (int i = 0; i < DAYS; i++)
        ADD(day);
    while (length + sizeof expiry + sizeof elsewhere <= sizeof file)
        ADD(expiry);
    ADD(elsewhere);
#undef ADD
    given = rev_listing(file, length, text, sizeof text);
    if (given == REV_TOO_LONG || given <= sizeof text / 2) {
        printf("REV_ROOM is too little or far too much: %zu\n", given);
        return 0;
    }
    return 1;
}

/* ---- The same number ---- */

static size_t pairs;

static int compares(struct number a, struct number b, bool same)
{
    pairs++;
    if (rev_same_number(NUMBER(a), NUMBER(b)) == same)
        return 1;
    printf("the numbers %d, %u, %llu and %d, %u, %llu are %s, and that is not told\n", a.international, a.count, (unsigned long long)a.value,
           b.international, b.count, (unsigned long long)b.value, same ? "the same" : "not the same");
    return 0;
}

/* Every pair of numbers of these natures, counts and values; and each with those that differ from it in one bit. */
static int same_numbers_are_told(void)
{
    static const uint8_t counts[] = {0, 1, 7, 8, 15, 16, 127, 128, 135, 255};
    static const uint64_t values[] = {0, 1, 5550100, 5550123, 999999999999999, 1000000000000000, UINT32_MAX, 0x10054B02B, INT64_MAX,
                                      UINT64_MAX};
    enum { COUNTS = sizeof counts / sizeof counts[0], VALUES = sizeof values / sizeof values[0], NUMBERS = 2 * COUNTS * VALUES };

    for (size_t i = 0; i < NUMBERS; i++) {
        struct number a = {i % 2 != 0, counts[i / 2 % COUNTS], values[i / 2 / COUNTS]};

        for (size_t j = 0; j < NUMBERS; j++) {
            struct number b = {j % 2 != 0, counts[j / 2 % COUNTS], values[j / 2 / COUNTS]};

            if (!compares(a, b, i == j))
                return 0;
        }
        for (unsigned bit = 0; bit < 64; bit++) {
            struct number other = {a.international, a.count, a.value ^ UINT64_C(1) << bit};

            if (!compares(a, other, false) || !compares(other, a, false))
                return 0;
        }
        for (unsigned bit = 0; bit < 8; bit++) {
            struct number other = {a.international, a.count ^ (uint8_t)(1u << bit), a.value};

            if (!compares(a, other, false) || !compares(other, a, false))
                return 0;
        }
    }
    return 1;
}

/* ---- The files ---- */

/* ---- Parameters ---- */

enum { MESSAGE_KIND = 5, CAUSE = 0, ENTRY_BYTES = 2 + REV_RECORD, LONGEST_PARAMETER = 257 };

/* Bytes that are lent, and what is wanted: the bytes that are written, or what is given where none are. */
struct carried {
    size_t given_len;
    uint8_t given[64];
    uint32_t refusal;
    size_t wanted_len;
    uint8_t wanted[2 * ENTRY_BYTES];
};

#define OPERATION(n) 0x06, 7, 0x00, 0x11, 0x85, 0x60, 0x03, 0x01, (n)
#define RECORD_HEAD(len) (len), 0, 3, 0, MESSAGE_KIND, CAUSE
#define NO_MORE 0

static const struct carried read_parameters[] = {
    /* none */
    {3, {0x32, 1, 0x91}, 0, 11, {0, 1, RECORD_HEAD(7), 0, 0, 0}},
    /* an invoke CALLED with every part */
    {33,
     {0x32, 31, 0x91, 0xA1, 28, 2, 1, 3, OPERATION(3), 0x30, 14, 0x80, 1, 0xFF, 0x81, 6, 0x83, 0x13, 0x55, 0x05, 0x21, 0x03, 0x82, 1, 0xFF},
     0,
     20,
     {3, 0, RECORD_HEAD(16), 1, 3, 41, 7, 0x2B, 0xB0, 0x54, 0, 0, 0, 0, 0}},
    /* an error and a reject without identifier */
    {24,
     {0x32, 22, 0x91, 0xA3, 12, 2, 1, 0x80, OPERATION(5), 0xA4, 5, 5, 0, 0x80, 1, 0},
     0,
     22,
     {0x80, 0, RECORD_HEAD(7), 3, 5, 0, 0, 1, RECORD_HEAD(7), 4, 0, 0}},
    {1, {0x32}, REV_CUT_SHORT, NO_MORE, {0}},
    {4, {0x32, 1, 0x91, 0}, REV_BAD_LENGTH, NO_MORE, {0}},
    {3, {0x33, 1, 0x91}, REV_NOT_OURS, NO_MORE, {0}},
    {3, {0x32, 1, 0x92}, REV_NOT_OURS + 256 * 2, NO_MORE, {0}},
    {18, {0x32, 16, 0x91, 0xA3, 12, 2, 1, 1, OPERATION(5), 0}, REV_CUT_SHORT + 256 * 17, NO_MORE, {0}},
    {19, {0x32, 17, 0x91, 0xA1, 14, 2, 1, 1, OPERATION(1), 0x30, 1}, REV_BAD_LENGTH + 256 * 17, NO_MORE, {0}},
    {33, {0x32, 31, 0x91, 0xA1, 28, 2,    1,    1,    OPERATION(1), 0x30, 14,   0x30, 12, 0x30, 10, 0x30,
          8,    0x30, 6,    0x30, 4, 0x30, 2, 5, 0},
     REV_TOO_DEEP + 256 * 31, NO_MORE, {0}},
};

static const struct carried written_parameters[] = {
    {20,
     {3, 0, RECORD_HEAD(16), 1, 3, 41, 7, 0x2B, 0xB0, 0x54, 0, 0, 0, 0, 0},
     0,
     33,
     {0x32, 31, 0x91, 0xA1, 28, 2, 1, 3, OPERATION(3), 0x30, 14, 0x80, 1, 0xFF, 0x81, 6, 0x83, 0x13, 0x55, 0x05, 0x21, 0x03, 0x82, 1, 0xFF}},
    /* what follows the record is not looked at */
    {14, {0, 1, RECORD_HEAD(7), 4, 0, 0, 9, 9, 9}, 0, 10, {0x32, 8, 0x91, 0xA4, 5, 5, 0, 0x80, 1, 0}},
    {0, {0}, 5, NO_MORE, {0}},
    {2, {1, 0}, 5, NO_MORE, {0}},
    {10, {1, 0, 7, 0, 3, 0, MESSAGE_KIND, CAUSE, 3, 5}, 5, NO_MORE, {0}},
    {6, {1, 0, 2, 0, 9, 0}, 7, NO_MORE, {0}},
    {6, {1, 0, 2, 0, 5, 0}, REV_BAD_FIELD, NO_MORE, {0}}, /* another kind of record: no field of it is to blame */
    {11, {1, 0, RECORD_HEAD(7), 3, 13, 0}, REV_BAD_FIELD + 256 * 4, NO_MORE, {0}}, /* no error of the module */
    {11, {0, 1, RECORD_HEAD(7), 3, 5, 0}, REV_BAD_FIELD + 256 * 6, NO_MORE, {0}}, /* no identifier */
    {11, {1, 0, RECORD_HEAD(7), 0, 0, 0}, REV_BAD_FIELD + 256 * 3, NO_MORE, {0}}, /* no component */
    {15, {1, 0, RECORD_HEAD(11), 2, 3, 64, 0, 0x10, 0x0E, 0}, REV_BAD_FIELD + 256 * 6, NO_MORE, {0}}, /* 921,600 s */
    {11, {1, 0, 7, 0, 3, 0, 6, 128, 0, 9, 128}, REV_BAD_FIELD + 256 * 1, NO_MORE, {0}},
    {11, {1, 0, 7, 0, 3, 0, 5, 128, 0, 9, 128}, REV_BAD_FIELD + 256 * 2, NO_MORE, {0}},
    {11, {1, 0, RECORD_HEAD(7), 1, 4, 128}, REV_BAD_FIELD + 256 * 4, NO_MORE, {0}},
    {11, {1, 1, RECORD_HEAD(7), 1, 3, 2}, REV_BAD_FIELD + 256 * 5, NO_MORE, {0}}, /* a part without a place */
    {20, {1, 1, RECORD_HEAD(16), 1, 3, 32, 16}, REV_BAD_FIELD + 256 * 6, NO_MORE, {0}}, /* sixteen digits */
    {24, {1, 0, RECORD_HEAD(20), 2, 3, 80, 1, 0, 0, 0, 0, 0, 0, 0, 0, 0, 0x10, 0x0E, 0}, REV_BAD_FIELD + 256 * 7, NO_MORE, {0}},
    {24, {1, 1, RECORD_HEAD(20), 2, 3, 80, 1}, REV_BAD_FIELD + 256 * 8, NO_MORE, {0}}, /* the identifier is after them */
};

typedef uint32_t carry(const uint8_t *given, size_t given_len, uint8_t *out, size_t out_len);

static uint32_t read_parameter(const uint8_t *given, size_t given_len, uint8_t *out, size_t out_len)
{
    return rev_read_parameter(given, given_len, MESSAGE_KIND, CAUSE, out, out_len);
}

static size_t parameters;

static int carries(carry *function, const struct carried *c, const uint8_t *given, size_t room)
{
    size_t end = GUARD + room + GUARD, text = c->refusal == 0 && c->wanted_len <= room ? c->wanted_len : 0;
    uint32_t want = c->refusal != 0 ? c->refusal : text == 0 ? REV_TOO_LONG : 256 * (uint32_t)text;

    parameters++;
    for (size_t i = 0; i < end; i++)
        guarded[i] = filler(i);
    for (int twice = 0; twice < 2; twice++)
        if (function(given, c->given_len, guarded + GUARD, room) != want || memcmp(guarded + GUARD, c->wanted, text) != 0 ||
            !stays(0, GUARD) || !stays(GUARD + text, end))
            return 0;
    return 1;
}

static int parameters_keep(uint8_t *pages)
{
    size_t count = sizeof read_parameters / sizeof read_parameters[0], more = sizeof written_parameters / sizeof written_parameters[0];

    for (size_t i = 0; i < count + more; i++) {
        const struct carried *c = i < count ? &read_parameters[i] : &written_parameters[i - count];
        const uint8_t *given = lend(pages, c->given, c->given_len);

        for (size_t room = 0; room <= sizeof c->wanted; room++)
            if (!carries(i < count ? read_parameter : rev_write_parameter, c, given, room)) {
                printf("a parameter (%zu) in a buffer of %zu bytes is not as promised\n", i, room);
                return 0;
            }
    }
    /* message and cause are judged last of all but the room */
    if (rev_read_parameter(read_parameters[1].given, read_parameters[1].given_len, 6, 128, guarded, 0) != REV_BAD_FIELD + 256 * 1 ||
        rev_read_parameter(read_parameters[1].given, read_parameters[1].given_len, 5, 128, guarded, 0) != REV_BAD_FIELD + 256 * 2 ||
        rev_read_parameter(read_parameters[3].given, read_parameters[3].given_len, 6, 0, guarded, 0) != REV_CUT_SHORT) {
        printf("message and cause are not judged as promised\n");
        return 0;
    }
    return 1;
}

static void stop(const char *what)
{
    perror(what);
    exit(2);
}

static size_t read_file(const char *name, uint8_t *bytes, size_t room)
{
    FILE *in = fopen(name, "rb");
    size_t length;

    if (in == NULL)
        stop(name);
    length = fread(bytes, 1, room, in);
    if (ferror(in) || fclose(in) != 0)
        stop(name);
    return length;
}

/* The bytes at the end of the pages, to be read only. */
static const uint8_t *lend(uint8_t *pages, const uint8_t *bytes, size_t length)
{
    if (mprotect(pages, PAGES, PROT_READ | PROT_WRITE) != 0)
        stop("mprotect");
    memcpy(pages + PAGES - length, bytes, length);
    if (mprotect(pages, PAGES, PROT_READ) != 0)
        stop("mprotect");
    return pages + PAGES - length;
}

int main(int argc, char **argv)
{
    static uint8_t bytes[REV_LONGEST + 1];
    uint8_t *pages = mmap(NULL, 2 * PAGES, PROT_NONE, MAP_PRIVATE | MAP_ANONYMOUS, -1, 0);
    char version[16];

    if (pages == MAP_FAILED)
        stop("mmap");
    for (int a = 1; a < argc; a++) {
        size_t length = read_file(argv[a], bytes, sizeof bytes);

        if (!kept(argv[a], lend(pages, bytes, length), length))
            return 1;
    }
    if (!kept("a file of no bytes", lend(pages, bytes, 0), 0) ||
        !kept("a file too long by a byte", lend(pages, bytes, sizeof bytes), sizeof bytes))
        return 1;
    if (!writers_keep() || !numbers_read_back() || !slots_keep(pages) || !slots_read_back() || !room_is_enough() || !same_numbers_are_told() ||
        !parameters_keep(pages))
        return 1;
    snprintf(version, sizeof version, "REV %d\n", REV_VERSION);
    rev_listing(bytes, 0, whole, ROOM);
    if (memcmp(whole, version, strlen(version)) != 0) {
        printf("the first line of a listing is not %s", version);
        return 1;
    }
    printf("%d files, %d events and %d records for slots, %zu buffers, %zu pairs of numbers, %zu rooms for parameters, each as promised\n",
           argc - 1, EVENTS, IN_SLOTS, buffers, pairs, parameters);
    return 0;
}
