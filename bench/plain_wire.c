/*
 * The reader and the writer of the ISUP Remote operations parameter (02 #105) in plain C: what the proved ones are compared with, in bytes
 * and in instructions. It shares no code with them. Numbers given back are in enum answer, with a place, a length or a field in the rest.
 *
 * A parameter is read in one pass from left to right. Nothing may be written if a component is refused or the entries don't fit, so they
 * are put together on the stack and copied at the end: a parameter has 255 octets of contents at most, so its entries are few. Neighbours
 * mostly write the shortest lengths; where an element may have any form, this one is looked for first.
 */
#include "plain.h"

#include <string.h>

enum answer {
    DONE = 0,
    OUT_OF_RANGE = 3,
    RECORD_CUT_SHORT = 5,
    BAD_RECORD_LENGTH = 6,
    UNKNOWN_KIND = 7,
    NO_ROOM = 8,
    CUT_SHORT = 11,
    BAD_LENGTH = 12,
    TOO_DEEP = 13,
    NOT_REV = 14
};

enum kind { NO_COMPONENT, INVOKE, RESULT, ERROR, REJECT };

enum operation { SETUP = 1, ACTIVE, CALLED_REQUEST };

enum part { TRANSFER = 1, ACCEPTED = 2, AS_TRANSFER = 4, PARTIAL = 8, CALLING = 16, CALLED = 32, DURATION = 64 };

enum tag {
    TAG_INTEGER = 0x02,
    TAG_NULL = 0x05,
    TAG_OBJECT = 0x06,
    TAG_SEQUENCE = 0x30,
    TAG_0 = 0x80,
    TAG_1 = 0x81,
    TAG_2 = 0x82,
    TAG_COMPONENT = 0xA0, /* and the kind of component */
    CONSTRUCTED = 0x20,
    SEVERAL = 0x1F /* a tag that goes on in the next octets, which none of the module's does */
};

enum {
    NAME = 0x32,
    PROFILE = 0x91,
    DEEPEST = 8, /* a component is at depth 1 */
    NO_IDENTIFIER = 256,
    FIRST_ERROR = 4,
    LAST_ERROR = 12,
    NATIONAL = 3, /* the natures of a number */
    INTERNATIONAL = 4,
    COMPLETE_E164 = 0x10,      /* the high half of a number's second octet */
    LONGEST_DURATION = 921599, /* 255 hours, 59 minutes, 59 seconds */
    MESSAGE = 3,               /* the kind of record */
    MESSAGE_LENGTH = 7,        /* what its length counts without parts, and what parts add */
    NUMBER_LENGTH = 9,
    DURATION_LENGTH = 4,
    ENTRY = 4 + MESSAGE_LENGTH, /* an entry without parts */
    /* The shortest component has 7 octets, and its entry 11 bytes: no other has more bytes for its octets. */
    LONGEST_ENTRIES = 254 / 7 * ENTRY
};

_Static_assert(__BYTE_ORDER__ == __ORDER_LITTLE_ENDIAN__, "numbers are stored as they stand in memory");

/* The object identifier of all operations and errors as it is written, without the number at its end. */
#define OBJECT TAG_OBJECT, 7, 0x00, 0x11, 0x85, 0x60, 0x03, 0x01

static const uint8_t object[8] = {OBJECT};

/* ---- Elements ---- */

struct reader {
    const uint8_t *start; /* of the parameter */
    uint32_t refusal;     /* where something was refused */
};

/* The contents of an element; a null pointer where it is refused. */
struct contents {
    const uint8_t *from, *to;
};

/* Gives the null pointer that tells it. */
static void *refuse(struct reader *reader, enum answer answer, const uint8_t *place)
{
    reader->refusal = (uint32_t)answer + 256 * (uint32_t)(place - reader->start);
    return NULL;
}

static struct contents refuse_element(struct reader *reader, enum answer answer, const uint8_t *place)
{
    return (struct contents){refuse(reader, answer, place), NULL};
}

/* An element of any form, or none. Where it passes `end`, it is refused with `passes`. */
static struct contents read_any_element(struct reader *reader, const uint8_t *place, const uint8_t *end, enum answer passes)
{
    const uint8_t *at = place;
    unsigned length;

    if (at == end)
        return refuse_element(reader, NOT_REV, place);
    if ((*at++ & SEVERAL) == SEVERAL)
        while (at != end && *at++ >= 0x80)
            ;
    if (at == end) /* in the tag, or just after it: a length is always there */
        return refuse_element(reader, passes, place);
    length = *at++;
    if (length == 0x80 || length == 0xFF)
        return refuse_element(reader, BAD_LENGTH, place);
    if (length > 0x80) {
        unsigned octets = length - 0x80;

        if (octets > end - at)
            return refuse_element(reader, passes, place);
        for (length = 0; octets > 0; octets--, at++)
            if (length <= 0xFF) /* more than a parameter has is too much, however much it is */
                length = length << 8 | *at;
    }
    if (length > end - at)
        return refuse_element(reader, passes, place);
    return (struct contents){at, at + length};
}

static inline struct contents read_element(struct reader *reader, const uint8_t *place, const uint8_t *end, enum answer passes)
{
    if (end - place < 2 || (place[0] & SEVERAL) == SEVERAL || place[1] >= 0x80 || place[1] > end - place - 2)
        return read_any_element(reader, place, end, passes);
    return (struct contents){place + 2, place + 2 + place[1]};
}

/* The elements of a component pass no end but with a bad length. */
static inline struct contents read_inner(struct reader *reader, const uint8_t *place, const uint8_t *end)
{
    return read_element(reader, place, end, BAD_LENGTH);
}

static const uint8_t *read_any_octets(struct reader *reader, const uint8_t *place, const uint8_t *end, uint8_t tag, unsigned length)
{
    struct contents octets = read_any_element(reader, place, end, BAD_LENGTH);

    if (octets.from == NULL)
        return NULL;
    if (*place != tag || octets.to - octets.from != length)
        return refuse(reader, NOT_REV, place);
    return octets.from;
}

/* The contents of an element that has this tag and so many octets. */
static inline const uint8_t *read_octets(struct reader *reader, const uint8_t *place, const uint8_t *end, uint8_t tag, uint8_t length)
{
    const uint8_t usual[2] = {tag, length};

    if (end - place < 2 + length || memcmp(place, usual, sizeof usual) != 0)
        return read_any_octets(reader, place, end, tag, length);
    return place + 2;
}

static inline struct contents read_sequence(struct reader *reader, const uint8_t *place, const uint8_t *end)
{
    struct contents sequence = read_inner(reader, place, end);

    if (sequence.from != NULL && *place != TAG_SEQUENCE)
        return refuse_element(reader, NOT_REV, place);
    return sequence;
}

/* Whether the module's elements end where what holds them does. What is there more is refused. */
static inline bool read_end(struct reader *reader, const uint8_t *place, const uint8_t *end)
{
    if (place == end)
        return true;
    if (read_inner(reader, place, end).from != NULL)
        refuse(reader, NOT_REV, place);
    return false;
}

/*
 * Leaves out elements at this depth; what they hold has to be elements too. Tags from [0] on, so many as are `own`, no longer belong there
 * and are refused. Gives whether nothing is.
 */
static bool read_unknown(struct reader *reader, const uint8_t *at, const uint8_t *end, unsigned own, unsigned depth)
{
    while (at != end) {
        struct contents unknown = read_inner(reader, at, end);

        if (unknown.from == NULL)
            return false;
        if (depth > DEEPEST) {
            refuse(reader, TOO_DEEP, at);
            return false;
        }
        if ((*at & ~(unsigned)CONSTRUCTED) - TAG_0 < own) {
            refuse(reader, NOT_REV, at);
            return false;
        }
        if (*at & CONSTRUCTED && !read_unknown(reader, unknown.from, unknown.to, 0, depth + 1))
            return false;
        at = unknown.to;
    }
    return true;
}

/* ---- Values ---- */

/* One more than two digits are, by their octet, which has the first in its low half; 0 where one of them is above 9. */
#define PAIRS(second)                                                                                                          \
    1 + second, 11 + second, 21 + second, 31 + second, 41 + second, 51 + second, 61 + second, 71 + second, 81 + second, \
        91 + second, 0, 0, 0, 0, 0, 0

static const uint8_t pair_and_1[256] = {PAIRS(0), PAIRS(1), PAIRS(2), PAIRS(3), PAIRS(4),
                                        PAIRS(5), PAIRS(6), PAIRS(7), PAIRS(8), PAIRS(9)};

/* Puts a number as a record has it, and gives the place after it; a null pointer where the octets are no number of 1 to 15 digits. */
static uint8_t *read_number(struct contents octets, uint8_t *to)
{
    const uint8_t *at = octets.from, *last = octets.to - 1;
    unsigned odd, nature;
    uint64_t value = 0;

    if (last - at < 2 || last - at > 9)
        return NULL;
    odd = at[0] >> 7;
    nature = at[0] & 0x7F;
    if ((nature != NATIONAL && nature != INTERNATIONAL) || (at[1] & 0xF0) != COMPLETE_E164)
        return NULL;
    for (at += 2; at != last; at++) {
        if (pair_and_1[*at] == 0)
            return NULL;
        value = value * 100 + (pair_and_1[*at] - 1u);
    }
    if (odd) {
        /* with the filler, which is 0, in the high half */
        if (*last > 9)
            return NULL;
        value = value * 10 + *last;
    } else {
        if (pair_and_1[*last] == 0 || last - octets.from == 9)
            return NULL;
        value = value * 100 + (pair_and_1[*last] - 1u);
    }
    *to = (uint8_t)(2 * (last - octets.from - 1) - odd + (nature == INTERNATIONAL ? 128 : 0));
    memcpy(to + 1, &value, sizeof value);
    return to + NUMBER_LENGTH;
}

/* ---- Components ---- */

/* The number at the end of the module's object identifier, by its place. */
static inline const uint8_t *read_object(struct reader *reader, const uint8_t *place, const uint8_t *end, unsigned least, unsigned most)
{
    const uint8_t *octets;

    if (end - place >= 9 && memcmp(place, object, sizeof object) == 0) {
        octets = place + 2;
    } else {
        octets = read_any_octets(reader, place, end, TAG_OBJECT, 7);
        if (octets == NULL)
            return NULL;
        if (memcmp(octets, object + 2, sizeof object - 2) != 0)
            return refuse(reader, NOT_REV, place);
    }
    if (octets[6] < least || octets[6] > most)
        return refuse(reader, NOT_REV, place);
    return octets + 6;
}

/*
 * These put the item, the parts and what belongs to them into the entry at `to`, and give its end; or a null pointer where something is
 * refused.
 */

/* The parts of an invoke or a result, which are at this depth. */
static uint8_t *read_parts(struct reader *reader, struct contents parts, unsigned depth, enum kind kind, unsigned operation, uint8_t *to)
{
    bool invoke = kind == INVOKE, called = operation == CALLED_REQUEST;
    const uint8_t *at = parts.from, *end = parts.to, *octets;
    uint8_t *to_end = to + ENTRY;
    unsigned named = 0;

    if (at != end && *at == TAG_0) {
        octets = read_octets(reader, at, end, TAG_0, 1);
        if (octets == NULL)
            return NULL;
        if (invoke)
            named = *octets ? TRANSFER : 0;
        else
            named = *octets ? ACCEPTED | AS_TRANSFER : ACCEPTED;
        at = octets + 1;
    }
    if (at != end && *at == TAG_1) {
        struct contents number = read_inner(reader, at, end);

        if (number.from == NULL)
            return NULL;
        to_end = read_number(number, to_end);
        if (to_end == NULL)
            return refuse(reader, NOT_REV, at);
        named |= invoke == called ? CALLED : CALLING;
        at = number.to;
    }
    if (called && at != end && *at == TAG_2) {
        octets = read_octets(reader, at, end, TAG_2, invoke ? 1 : 3);
        if (octets == NULL)
            return NULL;
        if (invoke) {
            named |= *octets ? PARTIAL : 0;
            at = octets + 1;
        } else {
            uint32_t duration = (octets[0] * 60u + octets[1]) * 60 + octets[2];

            if (octets[1] > 59 || octets[2] > 59)
                return refuse(reader, NOT_REV, at);
            named |= DURATION;
            memcpy(to_end, &duration, sizeof duration);
            to_end += DURATION_LENGTH;
            at = octets + 3;
        }
    }
    if (at != end && !read_unknown(reader, at, end, called ? 3 : 2, depth))
        return NULL;
    to[9] = (uint8_t)operation;
    to[10] = (uint8_t)named;
    return to_end;
}

static uint8_t *read_invoke(struct reader *reader, const uint8_t *at, const uint8_t *end, uint8_t *to)
{
    const uint8_t *octets;
    struct contents parts;
    uint8_t *to_end;

    if (at != end && *at == TAG_0) { /* a linked identifier */
        octets = read_octets(reader, at, end, TAG_0, 1);
        if (octets == NULL)
            return NULL;
        at = octets + 1;
    }
    octets = read_object(reader, at, end, SETUP, CALLED_REQUEST);
    if (octets == NULL)
        return NULL;
    parts = read_sequence(reader, octets + 1, end);
    if (parts.from == NULL)
        return NULL;
    to_end = read_parts(reader, parts, 3, INVOKE, *octets, to);
    return to_end != NULL && read_end(reader, parts.to, end) ? to_end : NULL;
}

static uint8_t *read_result(struct reader *reader, const uint8_t *at, const uint8_t *end, uint8_t *to)
{
    struct contents both = read_sequence(reader, at, end), parts;
    const uint8_t *octets;
    uint8_t *to_end;

    if (both.from == NULL)
        return NULL;
    octets = read_object(reader, both.from, both.to, SETUP, CALLED_REQUEST);
    if (octets == NULL)
        return NULL;
    parts = read_sequence(reader, octets + 1, both.to);
    if (parts.from == NULL)
        return NULL;
    to_end = read_parts(reader, parts, 4, RESULT, *octets, to);
    return to_end != NULL && read_end(reader, parts.to, both.to) && read_end(reader, both.to, end) ? to_end : NULL;
}

static uint8_t *read_error(struct reader *reader, const uint8_t *at, const uint8_t *end, uint8_t *to)
{
    const uint8_t *octets = read_object(reader, at, end, FIRST_ERROR, LAST_ERROR);

    if (octets == NULL || !read_end(reader, octets + 1, end))
        return NULL;
    to[9] = *octets;
    to[10] = 0;
    return to + ENTRY;
}

/* The problem, which is of one of four kinds, is not kept. */
static uint8_t *read_reject(struct reader *reader, const uint8_t *at, const uint8_t *end, uint8_t *to)
{
    struct contents problem = read_inner(reader, at, end);

    if (problem.from == NULL)
        return NULL;
    if (*at < TAG_0 || *at > TAG_0 + 3 || problem.to - problem.from != 1)
        return refuse(reader, NOT_REV, at);
    if (!read_end(reader, problem.to, end))
        return NULL;
    to[9] = 0;
    to[10] = 0;
    return to + ENTRY;
}

/* The record's kind, message and cause are the same in all entries. */
static uint64_t entry_head(unsigned message, unsigned cause)
{
    return (uint64_t)MESSAGE << 32 | (uint64_t)message << 48 | (uint64_t)cause << 56;
}

/* Completes an entry with its identifier, its record's length and its component; gives its end. */
static uint8_t *put_head(uint8_t *to, uint8_t *to_end, uint64_t head, unsigned identifier, enum kind kind)
{
    head |= identifier | (uint64_t)(to_end - to - 4) << 16;
    memcpy(to, &head, sizeof head);
    to[8] = (uint8_t)kind;
    return to_end;
}

static uint8_t *read_component(struct reader *reader, const uint8_t *place, struct contents component, uint64_t head, uint8_t *to)
{
    const uint8_t *at = component.from, *end = component.to, *octets;
    unsigned identifier;
    uint8_t *to_end;
    enum kind kind;

    if (*place < TAG_COMPONENT + INVOKE || *place > TAG_COMPONENT + REJECT)
        return refuse(reader, NOT_REV, place);
    kind = *place - TAG_COMPONENT;
    if (kind == REJECT && at != end && *at == TAG_NULL) {
        octets = read_octets(reader, at, end, TAG_NULL, 0);
        if (octets == NULL)
            return NULL;
        identifier = NO_IDENTIFIER;
        at = octets;
    } else {
        octets = read_octets(reader, at, end, TAG_INTEGER, 1);
        if (octets == NULL)
            return NULL;
        identifier = *octets;
        at = octets + 1;
    }
    switch (kind) {
    case INVOKE:
        to_end = read_invoke(reader, at, end, to);
        break;
    case RESULT:
        to_end = read_result(reader, at, end, to);
        break;
    case ERROR:
        to_end = read_error(reader, at, end, to);
        break;
    default:
        to_end = read_reject(reader, at, end, to);
        break;
    }
    return to_end != NULL ? put_head(to, to_end, head, identifier, kind) : NULL;
}

/* 3, and which field of a record's body is the first to blame, from 1. */
static uint32_t bad_field(unsigned ordinal)
{
    return OUT_OF_RANGE + 256 * ordinal;
}

static bool message_in_range(unsigned message)
{
    return message >= 1 && message <= 5;
}

static bool cause_in_range(unsigned cause)
{
    return cause <= 127;
}

uint32_t plain_read_parameter(const uint8_t *parameter, size_t parameter_len, uint8_t message, uint8_t cause, uint8_t *out,
                              size_t out_len)
{
    uint8_t entries[LONGEST_ENTRIES], *to = entries;
    struct reader reader = {.start = parameter};
    uint64_t head = entry_head(message, cause);
    const uint8_t *at, *end;
    size_t length;

    if (parameter_len < 2 || parameter_len - 2 < parameter[1])
        return CUT_SHORT;
    if (parameter_len - 2 > parameter[1] || parameter[1] == 0)
        return BAD_LENGTH;
    if (parameter[0] != NAME)
        return NOT_REV;
    if (parameter[2] != PROFILE)
        return NOT_REV + 256 * 2;
    end = parameter + parameter_len;
    for (at = parameter + 3; at != end;) {
        struct contents component = read_element(&reader, at, end, CUT_SHORT);

        if (component.from == NULL)
            return reader.refusal;
        to = read_component(&reader, at, component, head, to);
        if (to == NULL)
            return reader.refusal;
        at = component.to;
    }
    if (to == entries) {
        to[9] = 0;
        to[10] = 0;
        to = put_head(to, to + ENTRY, head, NO_IDENTIFIER, NO_COMPONENT);
    }
    if (!message_in_range(message))
        return bad_field(1);
    if (!cause_in_range(cause))
        return bad_field(2);
    length = (size_t)(to - entries);
    if (out_len < length)
        return NO_ROOM;
    memcpy(out, entries, length);
    return DONE + 256 * (uint32_t)length;
}

/* ---- Writing ---- */

static unsigned two_bytes(const uint8_t *at)
{
    return at[0] | (unsigned)at[1] << 8;
}

/* What the length of a message's record counts. */
static unsigned record_length(unsigned parts)
{
    return MESSAGE_LENGTH + (parts & CALLING ? NUMBER_LENGTH : 0) + (parts & CALLED ? NUMBER_LENGTH : 0) +
           (parts & DURATION ? DURATION_LENGTH : 0);
}

/*
 * Judges the framing of an entry's record as an event file's is: 5 (no two length bytes), 6 (the range), 5 (bytes lack), 7, 6 (not the
 * kind's length). No other kind than a message can be written.
 */
static enum answer read_frame(const uint8_t *entry, size_t entry_len)
{
    static const uint8_t lengths[7] = {0, 13, 12, 0, 4, 2, 6};
    unsigned length, kind;

    if (entry_len < 4)
        return RECORD_CUT_SHORT;
    length = two_bytes(entry + 2);
    if (length < 2 || length > 29)
        return BAD_RECORD_LENGTH;
    if (entry_len - 4 < length)
        return RECORD_CUT_SHORT;
    kind = two_bytes(entry + 4);
    if (kind == MESSAGE)
        return length >= MESSAGE_LENGTH && length == record_length(entry[10]) ? DONE : BAD_RECORD_LENGTH;
    if (kind < 1 || kind > 6)
        return UNKNOWN_KIND;
    return length == lengths[kind] ? OUT_OF_RANGE : BAD_RECORD_LENGTH;
}

/* What parts a component has. It has at most one number, the calling or the called one. */
struct parts {
    unsigned named;
    unsigned count;
    bool international;
    uint64_t value;
    uint32_t duration;
};

/*
 * Reads the parts of an operation's entry. Gives 0 where they can be written: each has a place in this operation and is in range. Else the
 * field that is the first to blame.
 */
static unsigned read_entry_parts(const uint8_t *entry, unsigned kind, unsigned operation, struct parts *parts)
{
    static const uint8_t places[2][3] = {
        {TRANSFER | CALLING, TRANSFER | CALLING, TRANSFER | CALLED | PARTIAL},
        {ACCEPTED | AS_TRANSFER | CALLED, ACCEPTED | AS_TRANSFER | CALLED, ACCEPTED | AS_TRANSFER | CALLING | DURATION},
    };
    const uint8_t *at = entry + ENTRY;

    parts->named = entry[10];
    if (parts->named & ~places[kind - INVOKE][operation - SETUP] || (parts->named & (ACCEPTED | AS_TRANSFER)) == AS_TRANSFER)
        return 5;
    if (parts->named & (CALLING | CALLED)) {
        parts->count = at[0] & 0x7F;
        parts->international = at[0] >> 7;
        memcpy(&parts->value, at + 1, sizeof parts->value);
        if (!plain_digits_fit(parts->count, parts->value))
            return 6;
        at += NUMBER_LENGTH;
    }
    if (parts->named & DURATION) {
        memcpy(&parts->duration, at, sizeof parts->duration);
        if (parts->duration > LONGEST_DURATION)
            return parts->named & CALLING ? 7 : 6;
    }
    return 0;
}

/* The field of the identifier, after those that the parts name. */
static unsigned identifier_field(const struct parts *parts)
{
    return 6 + (parts->named & (CALLING | CALLED) ? 1 : 0) + (parts->named & DURATION ? 1 : 0);
}

/* The octets of a number after its tag and length. */
static unsigned number_octets(const struct parts *parts)
{
    return 2 + (parts->count + 1) / 2;
}

static unsigned parts_octets(const struct parts *parts)
{
    unsigned named = parts->named;

    return (named & (TRANSFER | ACCEPTED) ? 3 : 0) + (named & (CALLING | CALLED) ? 2 + number_octets(parts) : 0) +
           (named & PARTIAL ? 3 : 0) + (named & DURATION ? 5 : 0);
}

/* Two digits in an octet, the first in its low half. */
#define OCTETS(first)                                                                                                             \
    first, 0x10 | first, 0x20 | first, 0x30 | first, 0x40 | first, 0x50 | first, 0x60 | first, 0x70 | first, 0x80 | first, \
        0x90 | first

static const uint8_t octet_of_pair[100] = {OCTETS(0), OCTETS(1), OCTETS(2), OCTETS(3), OCTETS(4),
                                           OCTETS(5), OCTETS(6), OCTETS(7), OCTETS(8), OCTETS(9)};

/* Complete, of E.164, presentation allowed, network provided. The digits are put from the last to the first. */
static uint8_t *put_number(uint8_t *to, const struct parts *parts)
{
    unsigned octets = number_octets(parts), odd = parts->count % 2;
    uint8_t *end = to + 2 + octets, *at = end;
    uint64_t value = parts->value;

    to[0] = TAG_1;
    to[1] = (uint8_t)octets;
    to[2] = (uint8_t)(odd << 7 | (parts->international ? INTERNATIONAL : NATIONAL));
    to[3] = COMPLETE_E164 | 3;
    if (odd) {
        *--at = (uint8_t)(value % 10);
        value /= 10;
    }
    for (; at != to + 4; value /= 100)
        *--at = octet_of_pair[value % 100];
    return end;
}

static void put_parts(uint8_t *to, const struct parts *parts)
{
    if (parts->named & (TRANSFER | ACCEPTED)) {
        to[0] = TAG_0;
        to[1] = 1;
        to[2] = parts->named & (TRANSFER | AS_TRANSFER) ? 0xFF : 0x00;
        to += 3;
    }
    if (parts->named & (CALLING | CALLED))
        to = put_number(to, parts);
    if (parts->named & PARTIAL) {
        to[0] = TAG_2;
        to[1] = 1;
        to[2] = 0xFF;
    }
    if (parts->named & DURATION) {
        to[0] = TAG_2;
        to[1] = 3;
        to[2] = (uint8_t)(parts->duration / 3600);
        to[3] = (uint8_t)(parts->duration / 60 % 60);
        to[4] = (uint8_t)(parts->duration % 60);
    }
}

/* The parameters up to their parts. What differs is 0 here, and put in after. */
static const uint8_t invoke[19] = {NAME, 0, PROFILE, TAG_COMPONENT + INVOKE, 0, TAG_INTEGER, 1, 0, OBJECT, 0, TAG_SEQUENCE, 0};
static const uint8_t result[21] = {NAME, 0, PROFILE, TAG_COMPONENT + RESULT, 0, TAG_INTEGER, 1, 0, TAG_SEQUENCE, 0, OBJECT, 0,
                                   TAG_SEQUENCE, 0};
static const uint8_t error[17] = {NAME, 15, PROFILE, TAG_COMPONENT + ERROR, 12, TAG_INTEGER, 1, 0, OBJECT, 0};
static const uint8_t reject[11] = {NAME, 9, PROFILE, TAG_COMPONENT + REJECT, 6, TAG_INTEGER, 1, 0, TAG_0, 1, 0};
static const uint8_t reject_of_none[10] = {NAME, 8, PROFILE, TAG_COMPONENT + REJECT, 5, TAG_NULL, 0, TAG_0, 1, 0};

static uint32_t write_operation(const uint8_t *entry, unsigned identifier, unsigned kind, unsigned operation, uint8_t *out, size_t out_len)
{
    struct parts parts = {0};
    unsigned bad, octets, length;

    if (operation < SETUP || operation > CALLED_REQUEST)
        return bad_field(4);
    bad = read_entry_parts(entry, kind, operation, &parts);
    if (bad != 0)
        return bad_field(bad);
    if (identifier >= NO_IDENTIFIER)
        return bad_field(identifier_field(&parts));
    octets = parts_octets(&parts);
    length = octets + (kind == INVOKE ? sizeof invoke : sizeof result);
    if (out_len < length)
        return NO_ROOM;
    if (kind == INVOKE) {
        memcpy(out, invoke, sizeof invoke);
        out[16] = (uint8_t)operation;
    } else {
        memcpy(out, result, sizeof result);
        out[9] = (uint8_t)(length - 10);
        out[18] = (uint8_t)operation;
    }
    out[1] = (uint8_t)(length - 2);
    out[4] = (uint8_t)(length - 5);
    out[7] = (uint8_t)identifier;
    out[length - octets - 1] = (uint8_t)octets;
    put_parts(out + length - octets, &parts);
    return DONE + 256 * length;
}

static uint32_t write_error(unsigned identifier, unsigned number, unsigned parts, uint8_t *out, size_t out_len)
{
    if (number < FIRST_ERROR || number > LAST_ERROR)
        return bad_field(4);
    if (parts != 0)
        return bad_field(5);
    if (identifier >= NO_IDENTIFIER)
        return bad_field(6);
    if (out_len < sizeof error)
        return NO_ROOM;
    memcpy(out, error, sizeof error);
    out[7] = (uint8_t)identifier;
    out[16] = (uint8_t)number;
    return DONE + 256 * sizeof error;
}

static uint32_t write_reject(unsigned identifier, unsigned number, unsigned parts, uint8_t *out, size_t out_len)
{
    if (number != 0)
        return bad_field(4);
    if (parts != 0)
        return bad_field(5);
    if (identifier > NO_IDENTIFIER)
        return bad_field(6);
    if (identifier == NO_IDENTIFIER) {
        if (out_len < sizeof reject_of_none)
            return NO_ROOM;
        memcpy(out, reject_of_none, sizeof reject_of_none);
        return DONE + 256 * sizeof reject_of_none;
    }
    if (out_len < sizeof reject)
        return NO_ROOM;
    memcpy(out, reject, sizeof reject);
    out[7] = (uint8_t)identifier;
    return DONE + 256 * sizeof reject;
}

uint32_t plain_write_parameter(const uint8_t *entry, size_t entry_len, uint8_t *out, size_t out_len)
{
    enum answer frame = read_frame(entry, entry_len);
    unsigned identifier, item, parts;

    if (frame != DONE)
        return frame;
    identifier = two_bytes(entry);
    item = entry[9];
    parts = entry[10];
    if (!message_in_range(entry[6]))
        return bad_field(1);
    if (!cause_in_range(entry[7]))
        return bad_field(2);
    switch (entry[8]) {
    case INVOKE:
    case RESULT:
        return write_operation(entry, identifier, entry[8], item, out, out_len);
    case ERROR:
        return write_error(identifier, item, parts, out, out_len);
    case REJECT:
        return write_reject(identifier, item, parts, out, out_len);
    default:
        return bad_field(3);
    }
}
