/*
 * Listings of the same inputs, timed in one process: the proved one (rev_listing), the plain one (plain_listing) and
 * that of the independent model (reference_listing). Then writers of the same events: the proved ones (rev_write_..)
 * and the plain ones (plain_write_..). Then readers and writers of the same parameters: the proved ones
 * (rev_read_parameter, rev_write_parameter) and the plain ones.
 *
 *   bench [--roomy]                tables: nanoseconds for one call of each listing, for 64 KiB of records written by each
 *                                  side's writers, and for some hundreds of parameters read and written, with ratios to
 *                                  the plain one
 *   bench [--roomy] --once WHICH KIND SIZE [CALLS]
 *                                  no table, but CALLS calls (1 if it is not said, and 0 is none): WHICH rev or plain,
 *                                  KIND call, messages, expiries or board, SIZE in KiB (1 to 64)
 *   bench --write WHICH KIND [CALLS]
 *                                  no table, but 64 KiB of records written CALLS times; KIND may also be times
 *   bench --read WHICH KIND [CALLS]
 *   bench --send WHICH KIND [CALLS]
 *                                  no table, but all parameters of a KIND read, or written, CALLS times
 *
 * Buffers have exactly the listing's length, which a call of the plain listing gives first, so that all have to measure the
 * whole file before they write; or under --roomy 4 MiB, which is more than any listing takes, so that the plain listing
 * need not measure. --once is for tools that count instructions: a run differs from one with fewer calls by those calls
 * alone.
 *
 * The plain listing is always in this program; the proved one unless it is built with WITHOUT_REV, the reference if it
 * is built with WITH_REFERENCE. Where the proved one runs under an emulator, and the reference cannot, two programs
 * share the work:
 *
 *   bench [--roomy] --figures      the native one: a line for each row, with the nanoseconds of reference and plain
 *   bench [--roomy] --emulated     the emulated one: the tables, with those figures read from standard input
 *
 * The inputs are built here and are the same in every run:
 *
 *   call       an originating call with REV set up and answered, then over and over: time; a FAC with an invoke and
 *              own request B (both answered with error 12); a FAC with both numbers, one of them international, and a
 *              Duration, which has no row; a time out of range; an expiry, which has no row
 *   messages   only messages of the longest form, 31 bytes, before the opening
 *   expiries   only expiries, 4 bytes, before the opening: the most lines that a file can give
 *   board      the call 64 times over, each in a slot of its own, all of them under way at once: record by record from
 *              slot to slot (02 #107)
 *
 * What is written is alike: a call of events in range, with an access event in the place of the time out of range; messages;
 * expiries; and times, of 8 bytes. The writers are called through pointers, and one record is written after another until
 * none fits.
 *
 * Parameters, of which each kind has as many:
 *
 *   usual      one component: every invoke and result with the parts that a row sends, the errors, rejects
 *   full       the longest of each: every part, fifteen digits, the longest duration
 *   looser     the usual ones as a neighbour may write them: longer lengths, a linked identifier, unknown elements
 *   several    three to six of the usual components in each
 *   refused    the usual and the full ones with something wrong: 11, 12, 13 and 14 at all depths
 *
 * The usual ones and the full ones are also written, from their entries. One after another is read or written, all into the
 * same buffer, which has room for each.
 */
#define _POSIX_C_SOURCE 200809L

#include "plain.h"
#include "../host/c/rev.h"

#include <stdbool.h>
#include <stdio.h>
#include <stdlib.h>
#include <string.h>
#include <time.h>

typedef size_t listing(const uint8_t *file, size_t file_len, uint8_t *out, size_t out_len);

enum which { REV, PLAIN, REFERENCE, LISTINGS };

#ifdef WITH_REFERENCE
extern listing reference_listing;
#endif

/* NULL where it is not linked. */
static listing *const listings[LISTINGS] = {
#ifndef WITHOUT_REV
    [REV] = rev_listing,
#endif
    [PLAIN] = plain_listing,
#ifdef WITH_REFERENCE
    [REFERENCE] = reference_listing,
#endif
};

enum {
    KIB = 1024,
    LONGEST_FILE = 64 * KIB,
    ROOM = 4 * KIB * KIB,
    RUNS = 200,        /* the best of so many counts */
    RUN_TIME = 200000, /* nanoseconds that a run takes at least: short, to find a quiet moment of the machine */
    TOO_LONG = 8,      /* given back where a listing does not fit */
    FILLER = 0xEE
};

static uint8_t file[LONGEST_FILE];
static uint8_t expected[ROOM]; /* the plain listing */
static uint8_t out[ROOM];      /* one for all, so that none has the better place */

/* Takes a byte of each listing that was timed, so that none can be left out. */
static uint64_t sum;

/* ---- The inputs ---- */

#define RECORD(...) {sizeof((const uint8_t[]){__VA_ARGS__}), {__VA_ARGS__}}

struct record {
    size_t size;
    uint8_t bytes[31];
};

static const struct record opening[] = {
    RECORD(13, 0, 1, 0, 0, 8, 7, 0x14, 0xB0, 0x54, 0, 0, 0, 0, 0), /* originating, flags 8 */
    RECORD(12, 0, 2, 0, 1, 7, 0x2B, 0xB0, 0x54, 0, 0, 0, 0, 0),    /* A */
    RECORD(7, 0, 3, 0, 2, 0, 2, 1, 0),                             /* ANM, result SETUP */
};

/* FAC, result CALLED, parts 2, 4, 16, 32 and 64, the called number international */
#define LONGEST_MESSAGE                                                                                            \
    RECORD(29, 0, 3, 0, 5, 0, 2, 3, 0x76, 7, 0x14, 0xB0, 0x54, 0, 0, 0, 0, 0, 0x8F, 0xFF, 0x7F, 0xC6, 0xA4, 0x7E, \
           0x8D, 3, 0, 0x3C, 0, 0, 0)

static const struct record cycle[] = {
    RECORD(6, 0, 6, 0, 0x10, 0x0E, 0, 0),                                   /* 3,600 seconds */
    RECORD(16, 0, 3, 0, 5, 0, 1, 3, 32, 7, 0x2B, 0xB0, 0x54, 0, 0, 0, 0, 0), /* FAC, invoke CALLED, called number */
    RECORD(12, 0, 2, 0, 2, 0, 0, 0, 0, 0, 0, 0, 0, 0),                      /* B */
    LONGEST_MESSAGE,
    RECORD(6, 0, 6, 0, 0x81, 0x51, 1, 0), /* 86,401 seconds */
    RECORD(2, 0, 5, 0),                   /* expiry */
};

static const struct record message[] = {LONGEST_MESSAGE};

static const struct record expiry[] = {RECORD(2, 0, 5, 0)};

static const struct kind {
    const char *name;
    const struct record *first; /* once */
    size_t first_count;
    const struct record *again; /* over and over */
    size_t again_count;
    size_t slots; /* each record in each of so many slots before the next, or 0: plain records */
} kinds[] = {
    {"call", opening, sizeof opening / sizeof *opening, cycle, sizeof cycle / sizeof *cycle, 0},
    {"messages", NULL, 0, message, 1, 0},
    {"expiries", NULL, 0, expiry, 1, 0},
    {"board", opening, sizeof opening / sizeof *opening, cycle, sizeof cycle / sizeof *cycle, REV_SLOTS},
};

enum { KINDS = sizeof kinds / sizeof *kinds };

static const size_t sizes[] = {1 * KIB, 16 * KIB, 64 * KIB};

enum { SIZES = sizeof sizes / sizeof *sizes };

/* Puts a record at a place of `file`, in a slot unless there are none; gives its size. */
static size_t put_record(size_t at, const struct record *record, size_t slots, size_t slot)
{
    const uint8_t head[] = {(uint8_t)(record->size + 4), 0, 7, 0, (uint8_t)slot, 0};
    size_t before = slots > 0 ? sizeof head : 0;

    memcpy(file + at, head, before);
    memcpy(file + at + before, record->bytes, record->size);
    return before + record->size;
}

/* Fills `file` with whole records, up to `size` bytes; gives its length. */
static size_t build(const struct kind *kind, size_t size)
{
    size_t length = 0, slots = kind->slots, slot = 0;

    for (size_t i = 0;;) {
        const struct record *next =
            i < kind->first_count ? &kind->first[i] : &kind->again[(i - kind->first_count) % kind->again_count];

        if (next->size + (slots > 0 ? 6 : 0) > size - length)
            return length;
        length += put_record(length, next, slots, slot);
        slot++;
        if (slot >= slots) {
            slot = 0;
            i++;
        }
    }
}

/* ---- What is written ---- */

/* One side's writers. */
struct writers {
    uint32_t (*opening)(uint8_t, uint8_t, bool, uint8_t, uint64_t, uint8_t *, size_t);
    uint32_t (*request)(uint8_t, bool, uint8_t, uint64_t, uint8_t *, size_t);
    uint32_t (*message)(uint8_t, uint8_t, uint8_t, uint8_t, uint8_t, bool, uint8_t, uint64_t, bool, uint8_t, uint64_t, uint32_t, uint8_t *,
                        size_t);
    uint32_t (*access)(uint8_t, uint8_t, uint8_t *, size_t);
    uint32_t (*expiry)(uint8_t *, size_t);
    uint32_t (*time)(uint32_t, uint8_t *, size_t);
};

#define WRITERS(side)                                                                                             \
    {side##_write_opening, side##_write_request, side##_write_message, side##_write_access, side##_write_expiry, \
     side##_write_time}

/* Null pointers where they are not linked; the reference has none. */
static const struct writers writers[LISTINGS] = {
#ifndef WITHOUT_REV
    [REV] = WRITERS(rev),
#endif
    [PLAIN] = WRITERS(plain),
};

static int has_writers(int which)
{
    return writers[which].expiry != NULL;
}

/*
 * The place after a record of this size at `at`; the same place if it was refused. The size is known here, so that the
 * writers are timed and not a wait for the length that they have just written.
 */
static size_t after(size_t at, size_t size, uint32_t given)
{
    return given == REV_WRITTEN ? at + size : at;
}

#define HERE out + at, LONGEST_FILE - at
#define NO_NUMBER false, 0, 0
#define HOME false, 7, 5550100
#define ROOM_23 false, 7, 5550123
#define LONGEST_FIELDS 5, 0, 2, 3, 0x76, HOME, true, 15, 999999999999999, 60

static size_t write_call(const struct writers *side)
{
    size_t at = 0, from;

    at = after(at, 15, side->opening(0, 8, HOME, HERE));
    at = after(at, 14, side->request(1, ROOM_23, HERE));
    at = after(at, 9, side->message(2, 0, 2, 1, 0, NO_NUMBER, NO_NUMBER, 0, HERE));
    do {
        from = at;
        at = after(at, 8, side->time(3600, HERE));
        at = after(at, 18, side->message(5, 0, 1, 3, 32, NO_NUMBER, ROOM_23, 0, HERE));
        at = after(at, 14, side->request(2, NO_NUMBER, HERE));
        at = after(at, 31, side->message(LONGEST_FIELDS, HERE));
        at = after(at, 6, side->access(2, 12, HERE));
        at = after(at, 4, side->expiry(HERE));
    } while (at > from);
    return at;
}

static size_t write_messages(const struct writers *side)
{
    size_t at = 0, from;

    do {
        from = at;
        at = after(at, 31, side->message(LONGEST_FIELDS, HERE));
    } while (at > from);
    return at;
}

static size_t write_expiries(const struct writers *side)
{
    size_t at = 0, from;

    do {
        from = at;
        at = after(at, 4, side->expiry(HERE));
    } while (at > from);
    return at;
}

static size_t write_times(const struct writers *side)
{
    size_t at = 0, from;

    do {
        from = at;
        at = after(at, 8, side->time(3600, HERE));
    } while (at > from);
    return at;
}

/* Writes up to 64 KiB of records to `out`; gives how many bytes they have. */
typedef size_t writing(const struct writers *side);

static const struct written {
    const char *name;
    writing *write;
} writings[] = {
    {"call", write_call},
    {"messages", write_messages},
    {"expiries", write_expiries},
    {"times", write_times},
};

enum { WRITINGS = sizeof writings / sizeof *writings };

/* ---- What is on the wire ---- */

enum {
    PARAMETERS = 340,        /* of each kind */
    LONGEST_PARAMETER = 257, /* its name and length among them */
    ENTRIES_ROOM = 512,      /* more than the entries of any parameter have */
    MESSAGE = 5,             /* with what they are read: a FAC, cause 0 */
    CAUSE = 0
};

static struct octets {
    size_t length;
    uint8_t bytes[LONGEST_PARAMETER];
} parameters[PARAMETERS], entries[PARAMETERS];

/* One side's reader and writer of parameters. */
struct wires {
    uint32_t (*read)(const uint8_t *, size_t, uint8_t, uint8_t, uint8_t *, size_t);
    uint32_t (*send)(const uint8_t *, size_t, uint8_t *, size_t);
};

/* Null pointers where they are not linked; the reference has none. */
static const struct wires wires[LISTINGS] = {
#ifndef WITHOUT_REV
    [REV] = {rev_read_parameter, rev_write_parameter},
#endif
    [PLAIN] = {plain_read_parameter, plain_write_parameter},
};

/* What is given beside the number: the place, or the length. */
static size_t rest(uint32_t given)
{
    return given >> 8;
}

enum component { INVOKE = 1, RESULT, ERROR, REJECT };

enum part { TRANSFER = 1, ACCEPTED = 2, AS_TRANSFER = 4, PARTIAL = 8, CALLING = 16, CALLED = 32, DURATION = 64 };

/* A component as rows send it, in the message that carries it. */
struct form {
    uint8_t message, cause, component, item, parts;
};

static const struct form usual_forms[] = {
    {1, 0, INVOKE, 1, 0},
    {1, 0, INVOKE, 1, TRANSFER | CALLING},
    {5, 0, INVOKE, 2, 0},
    {5, 0, INVOKE, 2, TRANSFER | CALLING},
    {5, 0, INVOKE, 3, CALLED},
    {5, 0, INVOKE, 3, PARTIAL | CALLED},
    {5, 0, INVOKE, 3, TRANSFER},
    {5, 0, INVOKE, 3, TRANSFER | PARTIAL},
    {2, 0, RESULT, 1, CALLED},
    {2, 0, RESULT, 1, ACCEPTED | AS_TRANSFER},
    {5, 0, RESULT, 2, CALLED},
    {5, 0, RESULT, 2, ACCEPTED | AS_TRANSFER},
    {5, 0, RESULT, 3, 0},
    {5, 0, RESULT, 3, ACCEPTED | AS_TRANSFER | CALLING},
    {5, 0, RESULT, 3, ACCEPTED | AS_TRANSFER | CALLING | DURATION},
    {4, 29, ERROR, 4, 0},
    {5, 0, REJECT, 0, 0},
};

static const struct form full_forms[] = {
    {1, 0, INVOKE, 1, TRANSFER | CALLING},
    {5, 0, INVOKE, 2, TRANSFER | CALLING},
    {5, 0, INVOKE, 3, TRANSFER | CALLED | PARTIAL},
    {2, 0, RESULT, 1, ACCEPTED | AS_TRANSFER | CALLED},
    {5, 0, RESULT, 2, ACCEPTED | AS_TRANSFER | CALLED},
    {5, 0, RESULT, 3, ACCEPTED | AS_TRANSFER | CALLING | DURATION},
    {4, 29, ERROR, 12, 0},
    {5, 0, REJECT, 0, 0},
};

enum { USUAL_FORMS = sizeof usual_forms / sizeof *usual_forms, FULL_FORMS = sizeof full_forms / sizeof *full_forms };

/* Sets an entry and its parameter. */
static void build_parameter(size_t i, unsigned identifier, const struct form *form, bool international, uint8_t count, uint64_t value,
                            uint32_t duration)
{
    bool calling = form->parts & CALLING, called = form->parts & CALLED;
    uint8_t *entry = entries[i].bytes;

    entry[0] = identifier & 0xFF;
    entry[1] = identifier >> 8 & 0xFF;
    plain_write_message(form->message, form->cause, form->component, form->item, form->parts, calling && international,
                        calling ? count : 0, calling ? value : 0, called && international, called ? count : 0, called ? value : 0,
                        form->parts & DURATION ? duration : 0, entry + 2, LONGEST_PARAMETER - 2);
    entries[i].length = 2 + rev_record_length(entry + 2);
    parameters[i].length = rest(plain_write_parameter(entry, entries[i].length, parameters[i].bytes, LONGEST_PARAMETER));
}

/* Rooms of seven digits, and now and then one abroad; errors 4 to 12 in turn; every other reject of no identifier. */
static void build_usual(void)
{
    for (size_t i = 0; i < PARAMETERS; i++) {
        size_t round = i / USUAL_FORMS;
        struct form form = usual_forms[i % USUAL_FORMS];
        bool abroad = round % 4 == 3;
        unsigned identifier = form.component == REJECT && round % 2 == 1 ? 256 : i % 256;

        if (form.component == ERROR)
            form.item += round % 9;
        build_parameter(i, identifier, &form, abroad, abroad ? 12 : 7, abroad ? 442075550100 + i : 5550100 + i, (uint32_t)(40 + 97 * i));
    }
}

static void build_full(void)
{
    for (size_t i = 0; i < PARAMETERS; i++)
        build_parameter(i, i % 256, &full_forms[i % FULL_FORMS], true, 15, 999999999999999 - i, 921599);
}

static size_t put_octets(uint8_t *to, const uint8_t *octets, size_t length)
{
    memcpy(to, octets, length);
    return length;
}

#define PUT(to, ...) put_octets((to), (const uint8_t[]){__VA_ARGS__}, sizeof((const uint8_t[]){__VA_ARGS__}))

/*
 * Writes elements as a neighbour may: lengths in two or three octets, after the identifier of an invoke a linked one, and after the parts
 * of an operation two elements that the module does not know. The parts are the SEQUENCE that does not begin with an object identifier.
 */
static size_t loosen(uint8_t *to, const uint8_t *octets, size_t length, bool invoke)
{
    size_t written = 0;

    for (size_t at = 0; at < length; at += 2u + octets[at + 1]) {
        const uint8_t *contents = octets + at + 2;
        uint8_t tag = octets[at], inside[LONGEST_PARAMETER];
        size_t size = octets[at + 1];

        if (tag & 0x20) {
            bool parts = tag == 0x30 && (size == 0 || contents[0] != 0x06);

            size = loosen(inside, contents, size, tag == 0xA1);
            if (parts) {
                size += PUT(inside + size, 0x85, 2, 0, 1);
                size += PUT(inside + size, 0xBF, 0x21, 5, 0x30, 3, 0x80, 1, 0);
            }
            contents = inside;
            written += PUT(to + written, tag, 0x82, 0, (uint8_t)size);
        } else {
            written += PUT(to + written, tag, 0x81, (uint8_t)size);
        }
        written += put_octets(to + written, contents, size);
        if (invoke && tag == 0x02)
            written += PUT(to + written, 0x80, 1, 0);
    }
    return written;
}

/* The head of a parameter with so many octets of components. */
static void put_head(struct octets *parameter, size_t components)
{
    PUT(parameter->bytes, 0x32, (uint8_t)(1 + components), 0x91);
    parameter->length = 3 + components;
}

static void build_looser(void)
{
    build_usual();
    for (size_t i = 0; i < PARAMETERS; i++) {
        struct octets usual = parameters[i];

        put_head(&parameters[i], loosen(parameters[i].bytes + 3, usual.bytes + 3, usual.length - 3, false));
    }
}

static void build_several(void)
{
    static struct octets usual[PARAMETERS];

    build_usual();
    memcpy(usual, parameters, sizeof usual);
    for (size_t i = 0; i < PARAMETERS; i++) {
        size_t written = 0;

        for (size_t j = i; j < i + 3 + i % 4; j++) {
            const struct octets *next = &usual[j % PARAMETERS];

            if (written + next->length > LONGEST_PARAMETER)
                break;
            written += put_octets(parameters[i].bytes + 3 + written, next->bytes + 3, next->length - 3);
        }
        put_head(&parameters[i], written);
    }
}

/* The place of the contents of the first element with this tag in a parameter, at any depth; 0 where there is none. */
static size_t find(const struct octets *parameter, uint8_t tag)
{
    size_t at = 3;

    while (at < parameter->length) {
        if (parameter->bytes[at] == tag)
            return at + 2;
        at += parameter->bytes[at] & 0x20 ? 2u : 2u + parameter->bytes[at + 1];
    }
    return 0;
}

/* Makes something wrong: which, goes by the ordinal. What it takes and the parameter does not have is wrong at the parameter's end. */
static void damage(struct octets *parameter, size_t which)
{
    uint8_t *bytes = parameter->bytes;
    size_t at = 0;

    switch (which) {
    case 0: /* 11: a byte lacks, in the parameter or in its component */
        parameter->length--;
        return;
    case 1:
        put_head(parameter, parameter->length - 4);
        return;
    case 2: /* 12: a byte too many */
        bytes[1]--;
        return;
    case 3: /* 14: another parameter, another profile, no component of REV */
        bytes[0] = 0x33;
        return;
    case 4:
        bytes[2] = 0x92;
        return;
    case 5:
        bytes[3] = 0xA5;
        return;
    case 6: /* 12: an indefinite length */
        bytes[4] = 0x80;
        return;
    case 7: /* 12: the identifier passes the end; 14: it is another type */
        bytes[6] = 0x7F;
        return;
    case 8:
        bytes[5] = 0x0A;
        return;
    case 9: /* 14: an operation or an error that the module has not */
        at = find(parameter, 0x06);
        if (at != 0)
            bytes[at + 6] = 0x0D;
        break;
    case 10: /* 14: a number of another nature, or with a digit above 9 */
        at = find(parameter, 0x81);
        if (at != 0)
            bytes[at] = 0x01;
        break;
    case 11:
        at = find(parameter, 0x81);
        if (at != 0)
            bytes[at + 2] = 0x2A;
        break;
    default: /* 13: an operation whose unknown elements are one in another */
        put_head(parameter, PUT(bytes + 3, 0xA1, 0x1C, 2, 1, 1, 6, 7, 0, 0x11, 0x85, 0x60, 3, 1, 1, 0x30, 0x0E, 0x30, 0x0C, 0x30, 0x0A,
                                0x30, 8, 0x30, 6, 0x30, 4, 0x30, 2, 5, 0));
        return;
    }
    if (at == 0)
        put_head(parameter, parameter->length - 3 + PUT(bytes + parameter->length, 0x05));
}

static void build_refused(void)
{
    static struct octets full[PARAMETERS];

    build_full();
    memcpy(full, parameters, sizeof full);
    build_usual();
    for (size_t i = 0; i < PARAMETERS; i++) {
        if (i % 3 == 0)
            parameters[i] = full[i];
        damage(&parameters[i], i % 13);
    }
}

static size_t read_all(const struct wires *side)
{
    size_t length = 0;

    for (size_t i = 0; i < PARAMETERS; i++)
        length += rest(side->read(parameters[i].bytes, parameters[i].length, MESSAGE, CAUSE, out, ENTRIES_ROOM));
    return length;
}

static size_t send_all(const struct wires *side)
{
    size_t length = 0;

    for (size_t i = 0; i < PARAMETERS; i++)
        length += rest(side->send(entries[i].bytes, entries[i].length, out, ENTRIES_ROOM));
    return length;
}

/* Reads or writes all parameters that were built. */
typedef size_t exchange(const struct wires *side);

static const struct exchanged {
    const char *option, *name;
    void (*build)(void);
    exchange *exchange;
    bool refused;
} exchanges[] = {
    {"--read", "usual", build_usual, read_all, false},     {"--read", "full", build_full, read_all, false},
    {"--read", "looser", build_looser, read_all, false},   {"--read", "several", build_several, read_all, false},
    {"--read", "refused", build_refused, read_all, true},  {"--send", "usual", build_usual, send_all, false},
    {"--send", "full", build_full, send_all, false},
};

enum { EXCHANGES = sizeof exchanges / sizeof *exchanges };

/* ---- The check ---- */

static int is_filler(const uint8_t *from, const uint8_t *end)
{
    /* all bytes are alike if each is as the one before it */
    return from == end || (*from == FILLER && memcmp(from, from + 1, (size_t)(end - from) - 1) == 0);
}

/* Whether `list` gives `given`, a length or 8, for a buffer of `room` bytes and has written the listing and no more. */
static int gives(listing *list, size_t file_len, size_t room, size_t given)
{
    size_t text = given == TOO_LONG ? 0 : given;

    memset(out, FILLER, ROOM);
    return list(file, file_len, out, room) == given && memcmp(out, expected, text) == 0 &&
           is_filler(out + text, out + ROOM);
}

/*
 * Gives the listing's length if all list the file alike, leave the rest of the buffer and take a buffer of exactly that
 * length, and if all refuse a shorter one with 8 and leave it; else 0.
 */
static size_t check(size_t file_len)
{
    size_t length = plain_listing(file, file_len, expected, ROOM);

    if (length == TOO_LONG)
        return 0;
    for (int i = 0; i < LISTINGS; i++)
        if (listings[i] != NULL && !(gives(listings[i], file_len, ROOM, length) &&
                                     gives(listings[i], file_len, length, length) &&
                                     gives(listings[i], file_len, length - 1, TOO_LONG)))
            return 0;
    return length;
}

/* Gives how many bytes are written if all write the same and leave the rest of the buffer; else 0. */
static size_t check_writing(writing *write)
{
    size_t length;

    memset(expected, FILLER, ROOM);
    memset(out, FILLER, ROOM);
    length = write(&writers[PLAIN]);
    memcpy(expected, out, length);
    for (int i = 0; i < LISTINGS; i++) {
        memset(out, FILLER, ROOM);
        if (has_writers(i) && (write(&writers[i]) != length || memcmp(out, expected, ROOM) != 0))
            return 0;
    }
    return length;
}

/* What a side gives for one parameter in so much room. */
static uint32_t give(const struct exchanged *exchanged, const struct wires *side, size_t i, size_t room)
{
    memset(out, FILLER, 2 * ENTRIES_ROOM);
    if (exchanged->exchange == read_all)
        return side->read(parameters[i].bytes, parameters[i].length, MESSAGE, CAUSE, out, room);
    return side->send(entries[i].bytes, entries[i].length, out, room);
}

/* Whether all give the same for one parameter in so much room, and the same bytes; sets what they give. */
static int same(const struct exchanged *exchanged, size_t i, size_t room, uint32_t *given)
{
    *given = give(exchanged, &wires[PLAIN], i, room);
    memcpy(expected, out, 2 * ENTRIES_ROOM);
    for (int which = 0; which < LISTINGS; which++)
        if (wires[which].read != NULL && (give(exchanged, &wires[which], i, room) != *given ||
                                          memcmp(out, expected, 2 * ENTRIES_ROOM) != 0))
            return 0;
    return 1;
}

/*
 * Builds the parameters; gives how many bytes they have if all sides read or write them alike, in enough room, in just enough and in a byte
 * less, and refuse exactly those that are to be refused; else 0.
 */
static size_t check_exchange(const struct exchanged *exchanged)
{
    size_t length = 0;

    exchanged->build();
    for (size_t i = 0; i < PARAMETERS; i++) {
        uint32_t given, other;

        if (!same(exchanged, i, ENTRIES_ROOM, &given) || (REV_NUMBER(given) != REV_WRITTEN) != exchanged->refused)
            return 0;
        if (!exchanged->refused && (!same(exchanged, i, rest(given), &other) || other != given ||
                                    !same(exchanged, i, rest(given) - 1, &other) || other != TOO_LONG))
            return 0;
        length += parameters[i].length;
    }
    return length;
}

static size_t count_records(size_t length)
{
    size_t records = 0;

    for (size_t at = 0; at < length; at += rev_record_length(expected + at))
        records++;
    return records;
}

/* ---- The times ---- */

/* The processor's time of this process, which leaves out what others take. */
static int64_t now(void)
{
    struct timespec time;

    clock_gettime(CLOCK_PROCESS_CPUTIME_ID, &time);
    return (int64_t)time.tv_sec * 1000000000 + time.tv_nsec;
}

/*
 * What is timed: a listing of `file`, or the writing of some records, or the reading or writing of all parameters. Nothing where it is not
 * linked.
 */
struct work {
    listing *list;
    size_t file_len, room;
    writing *write;
    const struct writers *writers;
    exchange *exchange;
    const struct wires *wires;
};

static int is_there(const struct work *work)
{
    return work->list != NULL || work->write != NULL || work->exchange != NULL;
}

static size_t do_work(const struct work *work)
{
    if (work->list != NULL)
        return work->list(file, work->file_len, out, work->room);
    return work->write != NULL ? work->write(work->writers) : work->exchange(work->wires);
}

static int64_t time_calls(const struct work *work, long calls)
{
    int64_t start = now();

    for (long i = 0; i < calls; i++) {
        size_t length = do_work(work);

        sum += length + out[length / 2];
    }
    return now() - start;
}

/* How many calls a run takes to last long enough. */
static long calibrate(const struct work *work)
{
    long calls = 1;

    while (time_calls(work, calls) < RUN_TIME)
        calls *= 2;
    return calls;
}

/* Sets the best nanoseconds for one call of each work. They take turns, so that a slow moment meets all of them. */
static void time_all(const struct work works[LISTINGS], double best[LISTINGS])
{
    long calls[LISTINGS];

    for (int i = 0; i < LISTINGS; i++) {
        best[i] = 1e30;
        if (is_there(&works[i]))
            calls[i] = calibrate(&works[i]);
    }
    for (int run = 0; run < RUNS; run++) {
        for (int i = 0; i < LISTINGS; i++) {
            if (is_there(&works[i])) {
                double once = (double)time_calls(&works[i], calls[i]) / calls[i];

                if (once < best[i])
                    best[i] = once;
            }
        }
    }
}

static void time_listings(size_t file_len, size_t room, double best[LISTINGS])
{
    struct work works[LISTINGS] = {{.list = NULL}};

    for (int i = 0; i < LISTINGS; i++)
        works[i] = (struct work){.list = listings[i], .file_len = file_len, .room = room};
    time_all(works, best);
}

static void time_writing(writing *write, double best[LISTINGS])
{
    struct work works[LISTINGS] = {{.list = NULL}};

    for (int i = 0; i < LISTINGS; i++)
        if (has_writers(i))
            works[i] = (struct work){.write = write, .writers = &writers[i]};
    time_all(works, best);
}

static void time_exchange(exchange *exchange, double best[LISTINGS])
{
    struct work works[LISTINGS] = {{.list = NULL}};

    for (int i = 0; i < LISTINGS; i++)
        if (wires[i].read != NULL)
            works[i] = (struct work){.exchange = exchange, .wires = &wires[i]};
    time_all(works, best);
}

/* ---- What is printed ---- */

enum output { TABLE, EMULATED_TABLE, FIGURES };

static void print_head(int roomy, enum output output)
{
    printf("Nanoseconds of processor time for one call, the best of %d runs of at least %d us, in turn.\n"
           "Buffers of %s, written before and not cleared between calls.\n\n",
           RUNS, RUN_TIME / 1000, roomy ? "4 MiB" : "exactly the listing's length");
    if (output == EMULATED_TABLE)
        printf("%-36s %36s  %36s\n", "", "----------- emulated -----------", "------------ native ------------");
    printf("%-9s %11s %14s %12s %12s %10s", "input", "file bytes", "listing bytes", "rev ns", "plain ns", "rev/plain");
    if (output == EMULATED_TABLE)
        printf("  %12s %12s %10s", "ref ns", "plain ns", "ref/plain");
    else if (listings[REFERENCE] != NULL)
        printf("  %12s %10s", "ref ns", "ref/plain");
    printf("\n");
}

/* Gives whether it could: the native figures of an emulated table may not be there. */
static int print_row(const char *name, size_t file_len, size_t length, const double ns[LISTINGS], enum output output)
{
    double reference, plain;

    if (output == FIGURES) {
        printf("%.0f %.0f\n", ns[REFERENCE], ns[PLAIN]);
        return 1;
    }
    printf("%-9s %11zu %14zu %12.0f %12.0f %10.2f", name, file_len, length, ns[REV], ns[PLAIN], ns[REV] / ns[PLAIN]);
    if (output == EMULATED_TABLE) {
        if (scanf("%lf %lf", &reference, &plain) != 2)
            return 0;
        printf("  %12.0f %12.0f %10.2f", reference, plain, reference / plain);
    } else if (listings[REFERENCE] != NULL) {
        printf("  %12.0f %10.2f", ns[REFERENCE], ns[REFERENCE] / ns[PLAIN]);
    }
    printf("\n");
    fflush(stdout);
    return 1;
}

static int table(int roomy, enum output output)
{
    if (listings[output == FIGURES ? REFERENCE : REV] == NULL) {
        fputs("bench: it was built without the listing that this takes\n", stderr);
        return 1;
    }
    if (output != FIGURES)
        print_head(roomy, output);
    for (int k = 0; k < KINDS; k++) {
        for (int s = 0; s < SIZES; s++) {
            size_t file_len = build(&kinds[k], sizes[s]);
            size_t length = check(file_len);
            double ns[LISTINGS];

            if (length == 0) {
                fprintf(stderr, "bench: the listings of %s, %zu bytes, differ\n", kinds[k].name, file_len);
                return 1;
            }
            time_listings(file_len, roomy ? ROOM : length, ns);
            if (!print_row(kinds[k].name, file_len, length, ns, output)) {
                fputs("\nbench: the native figures are not on standard input\n", stderr);
                return 1;
            }
        }
    }
    if (output != FIGURES)
        printf("\nAll listings were the same. (sum %llu)\n", (unsigned long long)sum);
    return 0;
}

static int writing_table(void)
{
    printf("\nThe same for %d KiB of records, written one by one.\n\n", LONGEST_FILE / KIB);
    printf("%-9s %11s %14s %12s %12s %10s\n", "input", "records", "bytes", "rev ns", "plain ns", "rev/plain");
    for (int k = 0; k < WRITINGS; k++) {
        size_t length = check_writing(writings[k].write);
        double ns[LISTINGS];

        if (length == 0) {
            fprintf(stderr, "bench: what is written of %s differs\n", writings[k].name);
            return 1;
        }
        time_writing(writings[k].write, ns);
        printf("%-9s %11zu %14zu %12.0f %12.0f %10.2f\n", writings[k].name, count_records(length), length, ns[REV], ns[PLAIN],
               ns[REV] / ns[PLAIN]);
        fflush(stdout);
    }
    printf("\nAll records were the same. (sum %llu)\n", (unsigned long long)sum);
    return 0;
}

static int exchange_table(void)
{
    printf("\nThe same for %d parameters, read (--read) or written (--send) one by one.\n\n", PARAMETERS);
    printf("%-6s %-9s %11s %14s %12s %12s %10s\n", "", "input", "parameters", "bytes", "rev ns", "plain ns", "rev/plain");
    for (int k = 0; k < EXCHANGES; k++) {
        size_t length = check_exchange(&exchanges[k]);
        double ns[LISTINGS];

        if (length == 0) {
            fprintf(stderr, "bench: what %s gives of %s differs\n", exchanges[k].option, exchanges[k].name);
            return 1;
        }
        time_exchange(exchanges[k].exchange, ns);
        printf("%-6s %-9s %11d %14zu %12.0f %12.0f %10.2f\n", exchanges[k].option, exchanges[k].name, PARAMETERS, length, ns[REV],
               ns[PLAIN], ns[REV] / ns[PLAIN]);
        fflush(stdout);
    }
    printf("\nAll numbers and bytes were the same. (sum %llu)\n", (unsigned long long)sum);
    return 0;
}

static int tables(int roomy, enum output output)
{
    int status = table(roomy, output);

    if (status == 0 && output != FIGURES)
        status = writing_table();
    if (status == 0 && output != FIGURES)
        status = exchange_table();
    return status;
}

/* Reads a number from 0 to `most`; gives whether it is one. */
static int read_number(const char *text, unsigned long most, unsigned long *number)
{
    char *end;

    *number = strtoul(text, &end, 10);
    return *text >= '0' && *text <= '9' && *end == '\0' && *number <= most;
}

/* Reads which side is meant; gives whether it is one that is linked. */
static int read_which(const char *text, enum which *which)
{
    *which = strcmp(text, "rev") == 0 ? REV : PLAIN;
    return (*which == REV || strcmp(text, "plain") == 0) && listings[*which] != NULL;
}

static int once(int roomy, const char *which, const char *kind_name, const char *size_text, const char *calls_text)
{
    enum which chosen;
    unsigned long size, calls;

    if (!read_which(which, &chosen) || !read_number(size_text, LONGEST_FILE / KIB, &size) || size == 0 ||
        !read_number(calls_text, 1000000, &calls))
        return 2;
    for (int k = 0; k < KINDS; k++) {
        if (strcmp(kinds[k].name, kind_name) == 0) {
            size_t file_len = build(&kinds[k], size * KIB);
            size_t length = roomy ? 0 : plain_listing(file, file_len, out, ROOM);
            size_t room = roomy ? ROOM : length;

            for (unsigned long i = 0; i < calls; i++)
                length = listings[chosen](file, file_len, out, room);
            printf("%s: %s, file of %zu bytes, listing of %zu bytes\n", which, kind_name, file_len, length);
            return 0;
        }
    }
    return 2;
}

static int write_once(const char *which, const char *kind_name, const char *calls_text)
{
    enum which chosen;
    unsigned long calls;

    if (!read_which(which, &chosen) || !read_number(calls_text, 1000000, &calls))
        return 2;
    for (int k = 0; k < WRITINGS; k++) {
        if (strcmp(writings[k].name, kind_name) == 0) {
            size_t length = check_writing(writings[k].write);

            for (unsigned long i = 0; i < calls; i++)
                length = writings[k].write(&writers[chosen]);
            printf("%s: %s, %zu records of %zu bytes\n", which, kind_name, count_records(length), length);
            return 0;
        }
    }
    return 2;
}

static int exchange_once(const char *option, const char *which, const char *kind_name, const char *calls_text)
{
    enum which chosen;
    unsigned long calls;

    if (!read_which(which, &chosen) || !read_number(calls_text, 1000000, &calls))
        return 2;
    for (int k = 0; k < EXCHANGES; k++) {
        if (strcmp(exchanges[k].option, option) == 0 && strcmp(exchanges[k].name, kind_name) == 0) {
            size_t length = check_exchange(&exchanges[k]);

            if (length == 0) {
                fprintf(stderr, "bench: what %s gives of %s differs\n", option, kind_name);
                return 1;
            }
            for (unsigned long i = 0; i < calls; i++)
                sum += exchanges[k].exchange(&wires[chosen]);
            printf("%s: %s, %d parameters of %zu bytes\n", which, kind_name, PARAMETERS, length);
            return 0;
        }
    }
    return 2;
}

int main(int count, char **words)
{
    int roomy = count > 1 && strcmp(words[1], "--roomy") == 0;
    int status = 2;

    count -= roomy;
    words += roomy;
    if (count == 1)
        status = tables(roomy, TABLE);
    else if (count == 2 && strcmp(words[1], "--emulated") == 0)
        status = tables(roomy, EMULATED_TABLE);
    else if (count == 2 && strcmp(words[1], "--figures") == 0)
        status = tables(roomy, FIGURES);
    else if ((count == 5 || count == 6) && strcmp(words[1], "--once") == 0)
        status = once(roomy, words[2], words[3], words[4], count == 6 ? words[5] : "1");
    else if ((count == 4 || count == 5) && !roomy && strcmp(words[1], "--write") == 0)
        status = write_once(words[2], words[3], count == 5 ? words[4] : "1");
    else if ((count == 4 || count == 5) && !roomy)
        status = exchange_once(words[1], words[2], words[3], count == 5 ? words[4] : "1");
    if (status == 2)
        fputs("usage: bench [--roomy] [--once rev|plain call|messages|expiries|board 1..64 [CALLS]]\n"
              "       bench --write rev|plain call|messages|expiries|times [CALLS]\n"
              "       bench --read rev|plain usual|full|looser|several|refused [CALLS]\n"
              "       bench --send rev|plain usual|full [CALLS]\n"
              "       bench [--roomy] --figures | --emulated\n",
              stderr);
    return status;
}
