/*
 * The listing and the dump of an event file, writers of its records, whether two telephone numbers are the same, and a reader and a writer
 * of the ISUP Remote operations parameter, for a host written in C or C++ on x86-64. Link with librev.a, which host/c/build makes and which
 * needs nothing else. docs/FORMAT.md has the file, the listing and the dump; docs/WIRE.md has the parameter. What is promised below is
 * proved of a function of crates/files or crates/peers, and once more of the one in crates/rev/src/lib.rt that is exported and calls it.
 */
#ifndef REV_H
#define REV_H

#ifndef __cplusplus
#include <stdbool.h>
#endif
#include <stddef.h>
#include <stdint.h>

#ifdef __cplusplus
extern "C" {
#endif

/* The form of file and listing. The first line of a listing says it: REV 1. */
#define REV_VERSION 1

/* The most bytes that a file may have. */
#define REV_LONGEST 65536u

/*
 * Room for the listing and for the dump of any file: 16 bytes of text for each byte of it. The shortest record has 4 bytes, and a line
 * without actions at most 64; longer records have room for the actions of their lines, as far as a call can repeat them, and an opening for
 * those that it cannot. So with this much room REV_TOO_LONG says that the file is too long. Counted and tested, not proved.
 */
#define REV_ROOM 1048576u

/*
 * Given back by the listing and the dump in the place of a length, and never a length itself: every listing has at least 12 bytes, every
 * dump 10. Given back by a writer, which gives no length, where the record has more bytes than there is room; and by rev_read_parameter and
 * rev_write_parameter, where what they would write has more.
 */
#define REV_TOO_LONG 8u

/*
 * Given back by a writer: the record is written; a field is out of its range. With the latter the rest (REV_REST) says which field, so
 * compare REV_NUMBER of what was given with it. So do rev_read_parameter and rev_write_parameter, which have a rest with both.
 */
#define REV_WRITTEN 0u
#define REV_BAD_FIELD 3u

/* Given back by rev_read_parameter, with a place: cut short; a bad length; an element too deep; not a component of reverse charging. */
#define REV_CUT_SHORT 11u
#define REV_BAD_LENGTH 12u
#define REV_TOO_DEEP 13u
#define REV_NOT_OURS 14u

/* The number of what was given; and the rest: the ordinal of a field, a place or a count of bytes, as each function says, else 0. */
#define REV_NUMBER(given) ((given) & 0xFFu)
#define REV_REST(given) ((given) >> 8)

/*
 * The most bytes that a record has, its two length bytes among them: one of kind 7, which has six more than the plain record inside. In so
 * much room no writer gives REV_TOO_LONG.
 */
#define REV_RECORD 37u

/* How many calls the listing's row has: slots 0 to 63. A record of kind 7 that names another is listed with 19. */
#define REV_SLOTS 64u

/*
 * Room for the entries of any parameter: it has 254 bytes of components at most, the shortest component has 7 and an entry of 11, and no
 * other has more bytes of entry for its own. Room for any parameter that is written. In so much room there is no REV_TOO_LONG.
 */
#define REV_ENTRIES 396u
#define REV_PARAMETER 41u

/* In an entry: the component has no identifier, as a reject may have none. Others have 0 to 255. */
#define REV_NO_IDENTIFIER 256u

/* With it gcc and clang warn of a null pointer that they see, and their sanitizer finds one that they do not. */
#ifdef __GNUC__
#define REV_NOT_NULL __attribute__((nonnull))
#else
#define REV_NOT_NULL
#endif

/*
 * rev_listing writes the listing of the file_len bytes at `file` into the out_len bytes at `out`; rev_dump writes their dump.
 *
 * They give the length of the text: that many bytes of `out` are the text (no zero byte follows), and those past it are as they were.
 * Or they give REV_TOO_LONG, and every byte of `out` is as it was. It has one of two reasons:
 *
 *   file_len > REV_LONGEST    the file is too long, for any buffer
 *   else                      the text has more than out_len bytes: try again with a larger buffer
 *
 * A host that wants every text lends REV_ROOM bytes, or doubles its buffer until the text fits (example.c).
 *
 * This holds for any bytes and any lengths, 0 among them. What they ask:
 *
 * - No pointer is null, even at length 0. So data() of an empty vector may not be passed.
 * - The bytes are there: file_len of them to be read, out_len to be written. None outside is touched, and none of the file is written.
 * - The two do not overlap.
 *
 * They keep nothing between calls, allocate nothing and call nothing: any number of threads may call them at once, each with its own
 * `out`. The same file may be lent to all. Of stack they take 7 KiB at most (measured): the listing's row of calls.
 *
 * The promise is proved of crates/files/src/listing.rt and dump.rt, and of crates/rev/src/lib.rt, whose functions these are and which calls
 * those. That these declarations fit them is tested (test.c) and not proved.
 */
size_t rev_listing(const uint8_t *file, size_t file_len, uint8_t *out, size_t out_len) REV_NOT_NULL;
size_t rev_dump(const uint8_t *file, size_t file_len, uint8_t *out, size_t out_len) REV_NOT_NULL;

/*
 * Each of these writes the record of one event at the start of the out_len bytes at `out`: kinds 1 to 6 of docs/FORMAT.md in their order,
 * with the fields in the order of the record. `item` is the operation or the error number of the component, else 0; `told` is what the own
 * access tells, 1 to 5. A telephone number is three parameters:
 *
 *   international    whether it is; where it is not, it is national
 *   count            how many digits it has, 1 to 15: no count byte of a record, so that 128 and more are out of range as 16 is
 *   value            below ten to the count
 *
 * Where none is wanted (request 2 and 3; a part that is not named) they are false, 0 and 0. A number of no digits is never international.
 * A Duration that the parts do not name is 0.
 *
 *   REV_WRITTEN      the record stands at `out`, and bytes past it are as they were; rev_record_length tells how long it is
 *   REV_BAD_FIELD    a field is out of its range, or a number or Duration is there that the event does not name
 *   REV_TOO_LONG     all fields are in range, and the record has more than out_len bytes
 *
 * The number is the low byte of what they give (REV_NUMBER). With REV_BAD_FIELD the rest (REV_REST) is the ordinal of the first field that
 * is to blame, so that what they give is 3 + 256 * ordinal; else it is 0. Fields are counted from 1 in the record, and a telephone number
 * is one of them:
 *
 *   opening          role 1, flags 2, own number 3
 *   request          request 1, called number 2
 *   message          message 1, cause 2, component 3, item 4, parts 5, then those that the parts name: calling number, called number,
 *                    Duration. So a called number alone is 6. A number or Duration that is there and not named is a fault of the parts, 5,
 *                    and so are bit 128 and part 4 without part 2
 *   access           told 1, error 2
 *   expiry           none: it is never REV_BAD_FIELD
 *   time             seconds 1
 *
 * On both refusals every byte of `out` is as it was. What they write, the listing and the dump read back as the same event.
 *
 * This holds for any fields and any length, 0 among them. Of a bool nothing has to be looked at: C makes true of every value but 0. But C
 * passes a number that is too large for its parameter's type without its high bits, and none of them sees it: 256 as a count arrives as 0,
 * 4294967356 seconds as 60. Look before you pass it (-Wconversion warns).
 *
 * What they ask: `out` is not null, even at length 0, and out_len bytes are there to be written; none outside is touched; and the caller
 * was compiled with this header: the three that take a number had one parameter less for each before 02 #103, and no linker compares
 * them. They too keep nothing between calls, allocate nothing and call nothing.
 *
 * The promise is proved of crates/files/src/write.rt. That these declarations fit it is tested (test.c) and not proved.
 */
uint32_t rev_write_opening(uint8_t role, uint8_t flags, bool own_international, uint8_t own_count, uint64_t own_value, uint8_t *out,
                           size_t out_len) REV_NOT_NULL;
uint32_t rev_write_request(uint8_t request, bool called_international, uint8_t called_count, uint64_t called_value, uint8_t *out,
                           size_t out_len) REV_NOT_NULL;
uint32_t rev_write_message(uint8_t message, uint8_t cause, uint8_t component, uint8_t item, uint8_t parts, bool calling_international,
                           uint8_t calling_count, uint64_t calling_value, bool called_international, uint8_t called_count,
                           uint64_t called_value, uint32_t duration, uint8_t *out, size_t out_len) REV_NOT_NULL;
uint32_t rev_write_access(uint8_t told, uint8_t error, uint8_t *out, size_t out_len) REV_NOT_NULL;
uint32_t rev_write_expiry(uint8_t *out, size_t out_len) REV_NOT_NULL;
uint32_t rev_write_time(uint32_t seconds, uint8_t *out, size_t out_len) REV_NOT_NULL;

/*
 * Puts a record in a slot: writes, at the start of the out_len bytes at `out`, the record of kind 7 that names `slot` and has inside the
 * plain record at the start of the record_len bytes at `record`, as one of the writers above has written it. What follows that record is
 * not looked at. So a board of many calls writes each event twice: first plain, into a buffer of its own, then around it.
 *
 *   5, 6, 7          no whole record of kind 1 to 6 stands at `record`, for the reasons of an event file (docs/FORMAT.md) of plain records
 *                    alone: 5 also where there are no bytes, 6 for every length above 29, 7 for a record that is of kind 7 itself
 *   REV_BAD_FIELD    a field of that record is out of its range; the rest is its ordinal in that record, as above
 *   REV_TOO_LONG     the record of kind 7 has more than out_len bytes: six more than the plain one
 *   REV_WRITTEN      it stands at `out`, and bytes past it are as they were; rev_record_length tells how long it is
 *
 * On every number but REV_WRITTEN all bytes of `out` are as they were. A slot is any of 0 to 65535: which of them a row has is not judged
 * here (REV_SLOTS). C passes a number that is too large for it without its high bits: 65536 arrives as 0.
 *
 * What it asks is what rev_listing asks: no pointer is null, even at length 0; the bytes are there; the two do not overlap. It too keeps
 * nothing between calls, allocates nothing and calls nothing.
 *
 * The promise is proved of crates/files/src/write.rt. That this declaration fits it is tested (test.c) and not proved.
 */
uint32_t rev_write_slot(uint16_t slot, const uint8_t *record, size_t record_len, uint8_t *out, size_t out_len) REV_NOT_NULL;

/*
 * Whether two telephone numbers are the same: exactly where both are international or neither is, and their counts are equal, and their
 * values. So 5550123 at home is not +5550123 abroad, nor 05550123. It asks for nothing: numbers out of range are compared alike.
 *
 * The promise is proved of crates/files/src/write.rt. That this declaration fits it is tested (test.c) and not proved.
 */
bool rev_same_number(bool international, uint8_t count, uint64_t value, bool other_international, uint8_t other_count,
                     uint64_t other_value);

/*
 * An entry is one component that a message carries: its invoke identifier in two bytes, the least first, 0 to 255 or REV_NO_IDENTIFIER;
 * then the whole record of kind 3, as rev_write_message writes it. It has 2 + rev_record_length(entry + 2) bytes.
 *
 * rev_read_parameter reads the parameter_len bytes at `parameter`, a whole parameter with its name, its length and nothing after it, which
 * came in a message of this kind (1 to 5) with this cause (0 to 127). It writes the entries of its components to the out_len bytes at
 * `out`, one after another, in their order; where it has none, one entry with component 0 and REV_NO_IDENTIFIER. What it gives has a number
 * (REV_NUMBER) and a rest (REV_REST); the numbers are looked for in this order:
 *
 *   REV_CUT_SHORT    these four: the parameter is refused, and the rest is the place, in bytes from 0. It is read once, from left to
 *   REV_BAD_LENGTH   right, and this is the first of them at the first place that has one; docs/WIRE.md says which where
 *   REV_TOO_DEEP
 *   REV_NOT_OURS
 *   REV_BAD_FIELD    message or cause is out of its range; the rest is 1 for the message, else 2
 *   REV_TOO_LONG     the entries have more than out_len bytes; the rest is 0
 *   REV_WRITTEN      the entries stand at `out`; the rest is how many bytes they have, 11 at least
 *
 * rev_write_parameter reads one entry in the entry_len bytes at `entry`, and writes the whole parameter with that component to the out_len
 * bytes at `out`. What follows the entry is not looked at. It gives
 *
 *   5, 6, 7          the record cannot be read, for the reasons of an event file (docs/FORMAT.md) of plain records alone: 7 for one of kind
 *                    7; 5 also where there are not two bytes, or none after them
 *   REV_BAD_FIELD    the record is of another kind, a field of it is out of its range, or its component cannot be written: component 0; an
 *                    error that is none of 4 to 12; a part that this component has no place for; a Duration above 921,599 seconds; an
 *                    identifier above 256, or none but in a reject. The rest is the ordinal of the first field that is to blame, counted
 *                    as rev_write_message counts them, the identifier after the last; 0 for a record of another kind
 *   REV_TOO_LONG     the parameter has more than out_len bytes
 *   REV_WRITTEN      the parameter stands at `out`; the rest is its length. Of 5, 6, 7 and REV_TOO_LONG the rest is 0
 *
 * Bytes of `out` past what was written are as they were, and on every number but REV_WRITTEN all of them are. A parameter that was written
 * is read back as its one component; one that came may be written with other bytes, and fewer.
 *
 * To answer an invoke, put the identifier of its entry before the record of the answer. Nothing here compares identifiers.
 *
 * A Duration above 921,599 seconds (255:59:59) has no form in a parameter, though a record may have it and a call may send it: in case C
 * with transfer, after so many seconds of the caller's. docs/WIRE.md, "The longest Duration", says what that means for a host.
 *
 * This holds for any bytes and any lengths, 0 among them. What they ask is what rev_listing asks: no pointer is null, even at length 0; the
 * bytes are there; the two do not overlap. And C passes a message or a cause that is too large for its type without its high bits. They too
 * keep nothing between calls, allocate nothing and call nothing. Of stack they take 9 KiB at most (measured).
 *
 * The promise is proved of crates/peers/src, which rests on crates/wire/src and crates/files/src. That these declarations fit it is tested
 * (test.c, and wires.c against an independent model) and not proved. That REV_ENTRIES is enough is counted as above, and tested.
 */
uint32_t rev_read_parameter(const uint8_t *parameter, size_t parameter_len, uint8_t message, uint8_t cause, uint8_t *out,
                            size_t out_len) REV_NOT_NULL;
uint32_t rev_write_parameter(const uint8_t *entry, size_t entry_len, uint8_t *out, size_t out_len) REV_NOT_NULL;

/* The bytes of a record that was written: its first two count those that follow them. */
static inline size_t rev_record_length(const uint8_t *record)
{
    return 2u + record[0] + 256u * record[1];
}

#ifdef __cplusplus
}
#endif

#endif
