/*
 * The listing of an event file, and writers of its records, in plain C: what the proved ones are compared with, in bytes
 * and in time. It shares no code with them. Labels such as G3, O27 or D8 are those of the table of rows; numbers given
 * back are in enum answer.
 *
 * Nothing may be written if the listing doesn't fit. A record's text has a longest form, so the bytes left of a file
 * bound the text to come: as soon as this bound says that the buffer is large enough, the file is listed in one run
 * with no further check. Only while it doesn't are records measured first (see `fits`). That is faster than to measure
 * every file and then to write it; a buffer of exactly the listing's length is the worst case and takes both runs. Whether
 * lines have slots hangs on all records, so what is not measured is at least looked through for one of kind 7.
 */
#include "plain.h"

#include <string.h>

enum {
    LONGEST_FILE = 65536,
    DAY = 86400,       /* the longest time event */
    YEAR = 31536000,   /* the largest sum of the meters, the largest total, and the largest Duration */
    RECORD_TEXT = 192, /* no record's text is longer: the line takes up to 68 bytes, O27's actions 84, 18 and 7 */
    END_TEXT = sizeof "END 16384\n" - 1,
    SHORTEST_RECORD = 4,
    LONGEST_PLAIN = 29, /* by the lengths that they say, plain records and those of kind 7 */
    LONGEST_LENGTH = 35,
    SLOT_BYTES = 6, /* what a record of kind 7 has before the one inside: its head and the slot */
    SLOTS = 64
};

/* ---- The call ---- */

enum answer {
    APPLIED = 0,
    NO_ROW = 1,
    TOO_MUCH = 2,
    OUT_OF_RANGE = 3,
    PART_ABSENT = 4,
    CUT_SHORT = 5,
    BAD_LENGTH = 6,
    UNKNOWN_KIND = 7,
    REFUSED = 8,
    WRONG_PHASE = 15,
    WRONG_STATE = 16,
    BEFORE_OPENING = 17,
    NO_SUCH_SLOT = 19,
    IN_USE = 20
};

enum role { ORIGINATING, DESTINATION };

enum phase { PHASE_NONE, PHASE_NULL, PHASE_SETUP, PHASE_ANSWERED, PHASE_CLEARED };

enum rev {
    REV_IDLE,
    REV_WAIT_SETUP,
    REV_WAIT_SETUP_CONF,
    REV_WAIT_CALLED,
    REV_WAIT_ANSWER,
    REV_WAIT_ACTIVE,
    REV_WAIT_ACTIVE_CONF,
    REV_ACTIVE
};

enum payer { NOBODY, CALLER, CALLED, FAR };

enum flag { FLAG_TRANSFER = 1, FLAG_OPTION = 2, FLAG_SUBSCRIBED = 4, FLAG_INTERACTION = 8, FLAG_CASE_D = 16 };

/* A user's number: `count` digits, leading zeros among them, and its nature, which is national where it is not international. */
struct digits {
    uint64_t value;
    uint8_t count;
    bool international;
};

/* Of the numbers that a call learns only its own is ever listed, so no other is held. */
struct call {
    enum role role;
    enum phase phase;
    enum rev rev;
    enum payer payer;
    uint32_t meter[4]; /* seconds, by payer; nobody's stay 0, as somebody pays in ANSWERED */
    uint32_t total;    /* answered seconds: the meters' sum, until a Duration sets them (D47) */
    uint8_t flags;
    uint8_t transfer; /* agreed on: in WAIT-ANSWER, WAIT-SETUP-CONF and WAIT-ACTIVE-CONF */
    uint8_t entire;   /* case C, not B: in WAIT-CALLED of an answered call */
    struct digits own;
};

/* ---- Events ---- */

enum kind { KIND_OPENING = 1, KIND_REQUEST, KIND_MESSAGE, KIND_ACCESS, KIND_EXPIRY, KIND_TIME, KIND_IN_SLOT };

enum request { REQUEST_BASIC, REQUEST_A, REQUEST_B, REQUEST_C };

enum message { IAM = 1, ANM, CON, REL, FAC };

enum component { NO_COMPONENT, INVOKE, RESULT, ERROR, REJECT };

enum operation { OP_SETUP = 1, OP_ACTIVE, OP_CALLED };

enum part {
    PART_TRANSFER = 1,
    PART_ACCEPTED = 2,
    PART_AS_TRANSFER = 4,
    PART_PARTIAL = 8,
    PART_CALLING = 16,
    PART_CALLED = 32,
    PART_DURATION = 64,
    PART_UNKNOWN = 128
};

enum access { ACCESS_ACCEPT = 1, ACCESS_ERROR, ACCESS_REJECT, ACCESS_CLEAR, ACCESS_ANSWER };

struct event {
    enum kind kind;
    uint8_t item;      /* the role, request, message or access item */
    uint8_t cause;     /* of a message */
    uint8_t component; /* of a message */
    uint8_t detail;    /* its operation or error number; the error number of an access item */
    uint8_t bits;      /* the flags of an opening, the parts of a message */
    uint32_t seconds;  /* of a time event; the Duration of a message */
    struct digits own; /* of an opening */
};

static unsigned two_bytes(const uint8_t *at)
{
    return at[0] | (unsigned)at[1] << 8;
}

static uint32_t four_bytes(const uint8_t *at)
{
    return at[0] | (uint32_t)at[1] << 8 | (uint32_t)at[2] << 16 | (uint32_t)at[3] << 24;
}

/* The top bit of the first byte is the nature, the rest of it the count. */
static struct digits read_digits(const uint8_t *at)
{
    return (struct digits){.value = four_bytes(at + 1) | (uint64_t)four_bytes(at + 5) << 32,
                           .count = at[0] & 0x7F,
                           .international = at[0] >> 7};
}

/* Count 1 to 15, and a value below 10 to the count, of either nature. */
static int digits_in_range(struct digits digits)
{
    return plain_digits_fit(digits.count, digits.value);
}

/* Where there is no number, it is national. */
static int digits_absent(struct digits digits)
{
    return digits.count == 0 && digits.value == 0 && !digits.international;
}

/* The bytes that follow the parts: bit 128 adds none. */
static unsigned parts_length(unsigned parts)
{
    return (parts & PART_CALLING ? 9 : 0) + (parts & PART_CALLED ? 9 : 0) + (parts & PART_DURATION ? 4 : 0);
}

/* Judges the kind of a plain record that is whole, and then its length. */
static inline enum answer judge_kind(const uint8_t *at, unsigned length)
{
    static const uint8_t lengths[] = {
        [KIND_OPENING] = 13, [KIND_REQUEST] = 12, [KIND_MESSAGE] = 7, [KIND_ACCESS] = 4, [KIND_EXPIRY] = 2, [KIND_TIME] = 6};
    unsigned kind = two_bytes(at + 2), right;

    if (kind < KIND_OPENING || kind > KIND_TIME)
        return UNKNOWN_KIND;
    right = lengths[kind];
    if (kind == KIND_MESSAGE && length >= 7)
        right += parts_length(at[8]);
    return length == right ? APPLIED : BAD_LENGTH;
}

/* A record where it stands: the plain one, or the one inside of kind 7, and the slot. */
struct frame {
    const uint8_t *plain;
    size_t size; /* what the record takes in the file */
    unsigned slot;
    bool in_slot; /* whether it is of kind 7 */
};

/* Judges what is inside a record of kind 7 that is whole: a length that fills it, then a kind of a plain record, then that kind's length. */
static inline enum answer read_inside(const uint8_t *at, unsigned length, struct frame *frame)
{
    unsigned inner = length - SLOT_BYTES;

    if (length < SLOT_BYTES + 2 || two_bytes(at + SLOT_BYTES) != inner)
        return BAD_LENGTH;
    frame->plain = at + SLOT_BYTES;
    frame->slot = two_bytes(at + 4);
    frame->in_slot = true;
    return judge_kind(frame->plain, inner);
}

/*
 * Judges the framing of the record at `at`, where at least one byte is left. The order is 5 (no two length bytes), 6
 * (the range; 30 to 35 with another kind than 7, of which two bytes have to be there, else 5), 5 (bytes lack), then the
 * kind: 7, 6 (not the kind's length), and in kind 7 what is inside.
 */
static inline enum answer read_frame(const uint8_t *at, size_t left, struct frame *frame)
{
    unsigned length;

    if (left < 2)
        return CUT_SHORT;
    length = two_bytes(at);
    if (length < 2 || length > LONGEST_LENGTH)
        return BAD_LENGTH;
    if (length > LONGEST_PLAIN) {
        if (left < 4)
            return CUT_SHORT;
        if (two_bytes(at + 2) != KIND_IN_SLOT)
            return BAD_LENGTH;
    }
    if (left - 2 < length)
        return CUT_SHORT;
    frame->size = 2 + length;
    if (two_bytes(at + 2) == KIND_IN_SLOT)
        return read_inside(at, length, frame);
    frame->plain = at;
    frame->slot = 0;
    frame->in_slot = false;
    return judge_kind(at, length);
}

/* The same for a plain record alone, by itself: none is of kind 7, and none is longer than 29. */
static enum answer read_plain(const uint8_t *at, size_t left)
{
    unsigned length;

    if (left < 2)
        return CUT_SHORT;
    length = two_bytes(at);
    if (length < 2 || length > LONGEST_PLAIN)
        return BAD_LENGTH;
    if (left - 2 < length)
        return CUT_SHORT;
    return judge_kind(at, length);
}

static int detail_in_range(unsigned component, unsigned detail)
{
    switch (component) {
    case NO_COMPONENT:
    case REJECT:
        return detail == 0;
    case INVOKE:
    case RESULT:
        return detail >= OP_SETUP && detail <= OP_CALLED;
    case ERROR:
        return 1;
    default:
        return 0;
    }
}

/* Part 4 is not without part 2. */
static int parts_in_range(unsigned parts)
{
    return !(parts & PART_UNKNOWN) && (parts & (PART_ACCEPTED | PART_AS_TRANSFER)) != PART_AS_TRANSFER;
}

static unsigned read_message(const uint8_t *body, struct event *event)
{
    const uint8_t *at = body + 5;
    unsigned ordinal = 5;

    event->item = body[0];
    event->cause = body[1];
    event->component = body[2];
    event->detail = body[3];
    event->bits = body[4];
    if (event->item < IAM || event->item > FAC)
        return 1;
    if (event->cause > 127)
        return 2;
    if (event->component > REJECT)
        return 3;
    if (!detail_in_range(event->component, event->detail))
        return 4;
    if (!parts_in_range(event->bits))
        return 5;
    for (unsigned part = PART_CALLING; part <= PART_CALLED; part <<= 1) {
        if (!(event->bits & part))
            continue;
        ordinal++;
        if (!digits_in_range(read_digits(at)))
            return ordinal;
        at += 9;
    }
    if (event->bits & PART_DURATION)
        event->seconds = four_bytes(at);
    return 0;
}

static unsigned read_request(const uint8_t *body, struct event *event)
{
    struct digits digits = read_digits(body + 1);

    event->item = body[0];
    if (event->item > REQUEST_C)
        return 1;
    if (event->item <= REQUEST_A ? !digits_in_range(digits) : !digits_absent(digits))
        return 2;
    return 0;
}

/* Reads the fields of a well-framed record; gives which is the first that is out of its range (number 3), from 1, or 0. */
static unsigned read_event(const uint8_t *body, struct event *event)
{
    switch (event->kind) {
    case KIND_OPENING:
        event->item = body[0];
        event->bits = body[1];
        event->own = read_digits(body + 2);
        return event->item > DESTINATION ? 1 : event->bits > 31 ? 2 : digits_in_range(event->own) ? 0 : 3;
    case KIND_REQUEST:
        return read_request(body, event);
    case KIND_MESSAGE:
        return read_message(body, event);
    case KIND_ACCESS:
        event->item = body[0];
        event->detail = body[1];
        if (event->item < ACCESS_ACCEPT || event->item > ACCESS_ANSWER)
            return 1;
        return event->item == ACCESS_ERROR || event->detail == 0 ? 0 : 2;
    case KIND_TIME:
        event->seconds = four_bytes(body);
        return event->seconds > DAY;
    default: /* an expiry has none */
        return 0;
    }
}

/* ---- Actions ---- */

enum error {
    NOT_SUBSCRIBED = 4,
    NOT_AVAILABLE = 7,
    NOT_ALLOWED = 8,
    NOT_PROVIDED = 9,
    IGNORED = 11,
    RUNNING = 12
};

enum cause { NORMAL = 16, REJECTED = 29, TIMER = 102 };

enum act { NOTIFY_ACCEPTED, OFFER_SETUP, OFFER_REV, GIVE_ERROR, GIVE_REL, CHARGE_CALLING, CHARGE_CALLED, STOP, SEND };

struct action {
    uint8_t act;
    uint8_t value;                             /* an error number, or the cause of a REL */
    uint8_t message, component, detail, parts; /* of SEND; a number among the parts is the call's own */
    uint32_t duration;                         /* of SEND, with that part */
};

struct actions {
    unsigned count;
    struct action list[4];
};

static void act(struct actions *actions, enum act what, unsigned value)
{
    actions->list[actions->count++] = (struct action){.act = what, .value = value};
}

static void send_timed(struct actions *actions, unsigned message, unsigned component, unsigned detail, unsigned parts,
                       uint32_t duration)
{
    actions->list[actions->count++] = (struct action){.act = SEND,
                                                      .message = message,
                                                      .component = component,
                                                      .detail = detail,
                                                      .parts = parts,
                                                      .duration = duration};
}

static void send(struct actions *actions, unsigned message, unsigned component, unsigned detail, unsigned parts)
{
    send_timed(actions, message, component, detail, parts, 0);
}

static void send_rel(struct actions *actions, unsigned cause, unsigned component, unsigned detail)
{
    send(actions, REL, component, detail, 0);
    actions->list[actions->count - 1].value = cause;
}

/* ---- What the rows share ---- */

/* The error that is passed on: the same if it is listed in the module, else Not Available. */
static int error_valid(unsigned error)
{
    return error >= 4 && error <= 12;
}

static unsigned error_passed_on(unsigned error)
{
    return error_valid(error) ? error : NOT_AVAILABLE;
}

static int has(const struct call *call, enum flag flag)
{
    return (call->flags & flag) != 0;
}

/* Not subscribed: judged under the subscription option only. */
static int not_subscribed(const struct call *call)
{
    return (call->flags & (FLAG_OPTION | FLAG_SUBSCRIBED)) == FLAG_OPTION;
}

/* An invoke is taken in transfer mode if it asks for it and this exchange's flag says so. */
static int takes_transfer(const struct call *call, const struct event *invoke)
{
    return has(call, FLAG_TRANSFER) && (invoke->bits & PART_TRANSFER);
}

/* A result means transfer mode if this exchange asked for it and parts 2 and 4 grant it (4 never comes alone). */
static int grants_transfer(const struct call *call, const struct event *result)
{
    return has(call, FLAG_TRANSFER) && (result->bits & PART_AS_TRANSFER);
}

/* A change from a payer charged at this exchange gives STOP, at the place of this call. */
static void set_payer(struct call *call, struct actions *actions, enum payer payer)
{
    int charged = call->payer == CALLED || (call->payer == CALLER && call->role == ORIGINATING);

    if (charged && call->payer != payer)
        act(actions, STOP, 0);
    call->payer = payer;
}

static void set_state(struct call *call, enum phase phase, enum rev rev)
{
    call->phase = phase;
    call->rev = rev;
}

static void clear(struct call *call, struct actions *actions)
{
    set_payer(call, actions, NOBODY);
    set_state(call, PHASE_CLEARED, REV_IDLE);
}

/* The call clears, and the other exchange is told. */
static enum answer clear_with_rel(struct call *call, struct actions *actions, unsigned cause, unsigned component,
                                  unsigned detail)
{
    clear(call, actions);
    send_rel(actions, cause, component, detail);
    return APPLIED;
}

/* G5, O18, O40, D24, D56: a REL from the other exchange. */
static enum answer take_rel(struct call *call, struct actions *actions, const struct event *rel)
{
    clear(call, actions);
    act(actions, GIVE_REL, rel->cause);
    return APPLIED;
}

/* O34, D52: a REL while a request of the own user waits. The STOP, if one is due, is last. */
static enum answer take_rel_waiting(struct call *call, struct actions *actions, const struct event *rel)
{
    act(actions, GIVE_ERROR, NOT_PROVIDED);
    act(actions, GIVE_REL, rel->cause);
    clear(call, actions);
    return APPLIED;
}

/* The own user's request fails and the call goes on, in the state it is in. */
static enum answer give_error(struct actions *actions, unsigned error)
{
    act(actions, GIVE_ERROR, error);
    return APPLIED;
}

/* The other exchange's request fails and the call goes on, in the state it is in. */
static enum answer send_error(struct actions *actions, unsigned error)
{
    send(actions, FAC, ERROR, error, 0);
    return APPLIED;
}

/* O35, O37, D43, D53, D57, D59: own request A, B or C where REV is already running. */
static enum answer request_running(struct actions *actions, const struct event *request)
{
    return request->item == REQUEST_BASIC ? NO_ROW : give_error(actions, RUNNING);
}

/* ---- The rows of an originating exchange ---- */

static enum answer originating_request(struct call *call, struct actions *actions, const struct event *event)
{
    unsigned parts = has(call, FLAG_TRANSFER) ? PART_TRANSFER | PART_CALLING : 0;

    switch (call->rev) {
    case REV_WAIT_ACTIVE: /* O35 */
    case REV_ACTIVE:      /* O37 */
        return request_running(actions, event);
    case REV_IDLE:
        break;
    default:
        return NO_ROW;
    }
    if (call->phase == PHASE_NULL && event->item == REQUEST_BASIC) { /* O1 */
        send(actions, IAM, NO_COMPONENT, 0, 0);
        set_state(call, PHASE_SETUP, REV_IDLE);
        return APPLIED;
    }
    if (call->phase == PHASE_NULL && event->item == REQUEST_A) {
        if (!has(call, FLAG_INTERACTION)) { /* O2: no IAM has passed, so no REL */
            act(actions, GIVE_ERROR, NOT_ALLOWED);
            act(actions, GIVE_REL, REJECTED);
            clear(call, actions);
            return APPLIED;
        }
        send(actions, IAM, INVOKE, OP_SETUP, parts); /* O3, O4 */
        set_state(call, PHASE_SETUP, REV_WAIT_SETUP);
        return APPLIED;
    }
    if (call->phase == PHASE_ANSWERED && event->item == REQUEST_B) {
        if (!has(call, FLAG_INTERACTION)) /* O20 */
            return give_error(actions, NOT_ALLOWED);
        send(actions, FAC, INVOKE, OP_ACTIVE, parts); /* O21, O22 */
        set_state(call, PHASE_ANSWERED, REV_WAIT_ACTIVE);
        return APPLIED;
    }
    return NO_ROW;
}

/* O9, O10, O16, O17, O28, O29: REV is accepted, and from now on another pays. */
static enum answer accepted(struct call *call, struct actions *actions, int transfer)
{
    act(actions, NOTIFY_ACCEPTED, 0);
    set_payer(call, actions, transfer ? FAR : CALLED);
    if (!transfer)
        act(actions, CHARGE_CALLED, 0);
    set_state(call, PHASE_ANSWERED, REV_ACTIVE);
    return APPLIED;
}

/* Case A fails in WAIT-SETUP. */
static void setup_failed(struct call *call, struct actions *actions)
{
    act(actions, GIVE_ERROR, NOT_AVAILABLE);
    act(actions, GIVE_REL, REJECTED);
    clear(call, actions);
}

/* O14, O15: the other exchange doesn't know yet. */
static enum answer setup_failed_here(struct call *call, struct actions *actions)
{
    setup_failed(call, actions);
    send_rel(actions, REJECTED, NO_COMPONENT, 0);
    return APPLIED;
}

/* ANM or CON. */
static enum answer originating_answer(struct call *call, struct actions *actions, const struct event *event)
{
    switch (call->rev) {
    case REV_IDLE:
        if (call->phase != PHASE_SETUP || event->component != NO_COMPONENT)
            return NO_ROW;
        set_payer(call, actions, CALLER); /* O5 */
        act(actions, CHARGE_CALLING, 0);
        set_state(call, PHASE_ANSWERED, REV_IDLE);
        return APPLIED;
    case REV_WAIT_SETUP:
        if (event->component == NO_COMPONENT) /* O14 */
            return setup_failed_here(call, actions);
        if (event->component != RESULT || event->detail != OP_SETUP)
            return NO_ROW;
        return accepted(call, actions, grants_transfer(call, event)); /* O9, O10 */
    case REV_WAIT_ANSWER:
        if (event->component != NO_COMPONENT)
            return NO_ROW;
        return accepted(call, actions, call->transfer); /* O16, O17 */
    default:
        return NO_ROW;
    }
}

static enum answer originating_rel(struct call *call, struct actions *actions, const struct event *event)
{
    switch (call->rev) {
    case REV_WAIT_SETUP:
        switch (event->component) {
        case ERROR:
            if (error_valid(event->detail)) { /* O11 */
                act(actions, GIVE_ERROR, event->detail);
                return take_rel(call, actions, event);
            }
            setup_failed(call, actions); /* O12 */
            return APPLIED;
        case REJECT:
        case NO_COMPONENT:
            setup_failed(call, actions); /* O13 */
            return APPLIED;
        default:
            return take_rel(call, actions, event); /* G5 */
        }
    case REV_WAIT_ACTIVE: /* O34 */
        return take_rel_waiting(call, actions, event);
    default: /* G5, O18, O40 */
        return call->phase == PHASE_NULL ? NO_ROW : take_rel(call, actions, event);
    }
}

/* Invoke CALLED at a call without REV: case D before the answer, B (partial call) or C after it. */
static enum answer called_invoke(struct call *call, struct actions *actions, const struct event *invoke)
{
    int transfer = takes_transfer(call, invoke);
    int entire = !(invoke->bits & PART_PARTIAL);
    unsigned parts = transfer ? PART_ACCEPTED | PART_AS_TRANSFER | PART_CALLING : 0;

    if (!has(call, FLAG_INTERACTION)) /* O6, O23 */
        return send_error(actions, NOT_ALLOWED);
    if (!(invoke->bits & (PART_TRANSFER | PART_CALLED))) /* O7, O24, O26 need the called number, or part 1 */
        return PART_ABSENT;
    if (call->phase == PHASE_SETUP) { /* O7, O8: notice and charging at the answer only */
        send(actions, FAC, RESULT, OP_CALLED, parts);
        call->transfer = transfer;
        set_state(call, PHASE_SETUP, REV_WAIT_ANSWER);
        return APPLIED;
    }
    if (transfer && entire) /* O27: the Duration is what the meter has before it is emptied */
        parts |= PART_DURATION;
    send_timed(actions, FAC, RESULT, OP_CALLED, parts, call->meter[CALLER]);
    if (entire) { /* O26, O27 */
        call->meter[transfer ? FAR : CALLED] += call->meter[CALLER];
        call->meter[CALLER] = 0;
    }
    return accepted(call, actions, transfer); /* O24 to O27 */
}

static enum answer originating_fac(struct call *call, struct actions *actions, const struct event *event)
{
    switch (call->rev) {
    case REV_IDLE:
        if (call->phase == PHASE_NULL || event->component != INVOKE || event->detail != OP_CALLED)
            return NO_ROW;
        return called_invoke(call, actions, event); /* O6 to O8, O23 to O27 */
    case REV_WAIT_ACTIVE:
        switch (event->component) {
        case INVOKE: /* O36 */
            return send_error(actions, RUNNING);
        case RESULT: /* O28, O29 */
            if (event->detail != OP_ACTIVE)
                return NO_ROW;
            return accepted(call, actions, grants_transfer(call, event));
        case ERROR: /* O30, O31 */
            call->rev = REV_IDLE;
            return give_error(actions, error_passed_on(event->detail));
        default: /* O32 */
            call->rev = REV_IDLE;
            return give_error(actions, NOT_AVAILABLE);
        }
    case REV_ACTIVE: /* O38 */
        return event->component == INVOKE ? send_error(actions, RUNNING) : NO_ROW;
    default:
        return NO_ROW;
    }
}

static enum answer originating_expiry(struct call *call, struct actions *actions)
{
    switch (call->rev) {
    case REV_WAIT_SETUP: /* O15 */
        return setup_failed_here(call, actions);
    case REV_WAIT_ACTIVE: /* O33 */
        call->rev = REV_IDLE;
        return give_error(actions, NOT_AVAILABLE);
    default:
        return NO_ROW;
    }
}

static enum answer originating(struct call *call, struct actions *actions, const struct event *event)
{
    switch (event->kind) {
    case KIND_REQUEST:
        return originating_request(call, actions, event);
    case KIND_MESSAGE:
        switch (event->item) {
        case ANM:
        case CON:
            return originating_answer(call, actions, event);
        case REL:
            return originating_rel(call, actions, event);
        case FAC:
            return originating_fac(call, actions, event);
        default:
            return NO_ROW;
        }
    case KIND_ACCESS: /* G4, O19, O39 */
        if (event->item != ACCESS_CLEAR || call->phase == PHASE_NULL)
            return NO_ROW;
        return clear_with_rel(call, actions, NORMAL, NO_COMPONENT, 0);
    case KIND_EXPIRY:
        return originating_expiry(call, actions);
    default:
        return NO_ROW;
    }
}

/* ---- The rows of a destination exchange ---- */

/* D3, D4, D32 to D35: invoke CALLED to the originating exchange. */
static enum answer ask_origin(struct call *call, struct actions *actions, unsigned partial)
{
    send(actions, FAC, INVOKE, OP_CALLED, partial | (has(call, FLAG_TRANSFER) ? PART_TRANSFER : PART_CALLED));
    call->entire = !partial;
    call->rev = REV_WAIT_CALLED;
    return APPLIED;
}

/* D7, D8, D28, D29: an invoke SETUP or ACTIVE is put to the user. */
static enum answer ask_user(struct call *call, struct actions *actions, const struct event *invoke, enum rev waiting)
{
    int transfer = takes_transfer(call, invoke);

    if (transfer && !(invoke->bits & PART_CALLING)) /* D8, D29 */
        return PART_ABSENT;
    act(actions, OFFER_REV, 0);
    call->transfer = transfer;
    call->rev = waiting;
    return APPLIED;
}

/* D10, D11, D22, D23, D36, D37: REV becomes active; with transfer this exchange charges, before it answers. */
static enum answer activate(struct call *call, struct actions *actions, unsigned message, unsigned component,
                            unsigned operation)
{
    unsigned parts = call->transfer ? PART_ACCEPTED | PART_AS_TRANSFER : PART_CALLED;

    if (call->transfer) {
        set_payer(call, actions, CALLED);
        act(actions, CHARGE_CALLED, 0);
    } else if (call->phase == PHASE_SETUP) {
        set_payer(call, actions, FAR);
    }
    send(actions, message, component, operation, component == RESULT ? parts : 0);
    set_state(call, PHASE_ANSWERED, REV_ACTIVE);
    return APPLIED;
}

static enum answer destination_request(struct call *call, struct actions *actions, const struct event *event)
{
    switch (call->rev) {
    case REV_WAIT_ACTIVE_CONF: /* D43 */
    case REV_ACTIVE:           /* D53 */
    case REV_WAIT_CALLED:      /* D57, D59: the wait goes on, with what is pending */
        return request_running(actions, event);
    case REV_IDLE:
        if (call->phase != PHASE_ANSWERED || event->item < REQUEST_B)
            return NO_ROW;
        if (not_subscribed(call)) /* D30 */
            return give_error(actions, NOT_SUBSCRIBED);
        if (!has(call, FLAG_INTERACTION)) /* D31 */
            return give_error(actions, NOT_ALLOWED);
        return ask_origin(call, actions, event->item == REQUEST_B ? PART_PARTIAL : 0); /* D32 to D35 */
    default:
        return NO_ROW;
    }
}

static enum answer destination_iam(struct call *call, struct actions *actions, const struct event *event)
{
    enum answer answer;

    if (call->phase != PHASE_NULL)
        return NO_ROW;
    if (event->component == NO_COMPONENT) {
        if (!has(call, FLAG_CASE_D)) { /* D1 */
            act(actions, OFFER_SETUP, 0);
            set_state(call, PHASE_SETUP, REV_IDLE);
            return APPLIED;
        }
        if (!has(call, FLAG_INTERACTION)) /* D2 */
            return clear_with_rel(call, actions, REJECTED, NO_COMPONENT, 0);
        call->phase = PHASE_SETUP;
        return ask_origin(call, actions, 0); /* D3, D4 */
    }
    if (event->component != INVOKE || event->detail != OP_SETUP)
        return NO_ROW;
    if (not_subscribed(call)) /* D5 */
        return clear_with_rel(call, actions, REJECTED, ERROR, NOT_SUBSCRIBED);
    if (!has(call, FLAG_INTERACTION)) /* D6 */
        return clear_with_rel(call, actions, REJECTED, ERROR, NOT_ALLOWED);
    answer = ask_user(call, actions, event, REV_WAIT_SETUP_CONF); /* D7, D8 */
    if (answer == APPLIED)
        call->phase = PHASE_SETUP;
    return answer;
}

/* WAIT-CALLED before the answer: case D. */
static enum answer called_response_d(struct call *call, struct actions *actions, const struct event *event)
{
    int transfer = grants_transfer(call, event);

    switch (event->component) {
    case RESULT:
        if (event->detail != OP_CALLED)
            return NO_ROW;
        if (transfer && !(event->bits & PART_CALLING)) /* D19 */
            return PART_ABSENT;
        if (!transfer) /* D18 */
            act(actions, NOTIFY_ACCEPTED, 0);
        call->transfer = transfer;
        set_state(call, PHASE_SETUP, REV_WAIT_ANSWER);
        return APPLIED;
    case ERROR:
    case REJECT: /* D20 */
        return clear_with_rel(call, actions, REJECTED, NO_COMPONENT, 0);
    default:
        return NO_ROW;
    }
}

/* WAIT-CALLED after the answer: case B or C. */
static enum answer called_response(struct call *call, struct actions *actions, const struct event *event)
{
    switch (event->component) {
    case RESULT:
        if (event->detail != OP_CALLED)
            return NO_ROW;
        if (grants_transfer(call, event)) { /* D46, D47 */
            unsigned needed = call->entire ? PART_CALLING | PART_DURATION : PART_CALLING;

            if ((event->bits & needed) != needed)
                return PART_ABSENT;
            if (call->entire) { /* D47: the meters are what the other exchange says, the total stays */
                if (event->seconds > YEAR)
                    return TOO_MUCH;
                call->meter[CALLED] = event->seconds;
                call->meter[FAR] = 0;
            }
            set_payer(call, actions, CALLED);
            act(actions, CHARGE_CALLED, 0);
        }
        act(actions, NOTIFY_ACCEPTED, 0); /* D45 to D47 */
        set_state(call, PHASE_ANSWERED, REV_ACTIVE);
        return APPLIED;
    case ERROR: /* D48, D49 */
        call->rev = REV_IDLE;
        return give_error(actions, error_passed_on(event->detail));
    case REJECT: /* D50 */
        call->rev = REV_IDLE;
        return give_error(actions, NOT_AVAILABLE);
    default:
        return NO_ROW;
    }
}

static enum answer destination_fac(struct call *call, struct actions *actions, const struct event *event)
{
    switch (call->rev) {
    case REV_IDLE:
        if (call->phase != PHASE_ANSWERED || event->component != INVOKE || event->detail != OP_ACTIVE)
            return NO_ROW;
        if (not_subscribed(call)) /* D26 */
            return send_error(actions, NOT_SUBSCRIBED);
        if (!has(call, FLAG_INTERACTION)) /* D27 */
            return send_error(actions, NOT_ALLOWED);
        return ask_user(call, actions, event, REV_WAIT_ACTIVE_CONF); /* D28, D29 */
    case REV_WAIT_CALLED:
        if (event->component == INVOKE) /* D58, D60: likewise */
            return send_error(actions, RUNNING);
        if (call->phase == PHASE_SETUP) /* D18 to D20 */
            return called_response_d(call, actions, event);
        return called_response(call, actions, event); /* D45 to D50 */
    case REV_WAIT_ACTIVE_CONF:                        /* D44 */
    case REV_ACTIVE:                                  /* D54 */
        return event->component == INVOKE ? send_error(actions, RUNNING) : NO_ROW;
    default:
        return NO_ROW;
    }
}

/* The user is asked in WAIT-SETUP-CONF: case A. */
static enum answer user_response_setup(struct call *call, struct actions *actions, const struct event *event)
{
    switch (event->item) {
    case ACCESS_ACCEPT: /* D10, D11 */
        return activate(call, actions, ANM, RESULT, OP_SETUP);
    case ACCESS_ERROR: /* D12, D13: the item has no cause, so 16 with an error that is passed on */
        return clear_with_rel(call, actions, error_valid(event->detail) ? NORMAL : REJECTED, ERROR,
                              error_passed_on(event->detail));
    case ACCESS_REJECT: /* D14 */
        return clear_with_rel(call, actions, REJECTED, ERROR, NOT_AVAILABLE);
    case ACCESS_CLEAR: /* D15 */
        return clear_with_rel(call, actions, NORMAL, NO_COMPONENT, 0);
    default: /* D16, answered without REV */
        return clear_with_rel(call, actions, REJECTED, ERROR, IGNORED);
    }
}

/* The user is asked in WAIT-ACTIVE-CONF: case B. */
static enum answer user_response_active(struct call *call, struct actions *actions, const struct event *event)
{
    switch (event->item) {
    case ACCESS_ACCEPT: /* D36, D37 */
        return activate(call, actions, FAC, RESULT, OP_ACTIVE);
    case ACCESS_ERROR: /* D38, D39 */
        call->rev = REV_IDLE;
        return send_error(actions, error_passed_on(event->detail));
    case ACCESS_REJECT: /* D40 */
        call->rev = REV_IDLE;
        return send_error(actions, NOT_AVAILABLE);
    case ACCESS_CLEAR: /* D42 */
        return clear_with_rel(call, actions, NORMAL, ERROR, NOT_PROVIDED);
    default:
        return NO_ROW;
    }
}

static enum answer destination_access(struct call *call, struct actions *actions, const struct event *event)
{
    if (call->phase == PHASE_NULL)
        return NO_ROW;
    if (call->rev == REV_WAIT_SETUP_CONF)
        return user_response_setup(call, actions, event);
    if (call->rev == REV_WAIT_ACTIVE_CONF)
        return user_response_active(call, actions, event);
    switch (event->item) {
    case ACCESS_CLEAR: /* G4, D25, D55 */
        return clear_with_rel(call, actions, NORMAL, NO_COMPONENT, 0);
    case ACCESS_ANSWER:
        if (call->rev == REV_WAIT_ANSWER) /* D22, D23 */
            return activate(call, actions, ANM, NO_COMPONENT, 0);
        if (call->phase != PHASE_SETUP || call->rev != REV_IDLE)
            return NO_ROW;
        set_payer(call, actions, FAR); /* D9 */
        send(actions, ANM, NO_COMPONENT, 0, 0);
        set_state(call, PHASE_ANSWERED, REV_IDLE);
        return APPLIED;
    default:
        return NO_ROW;
    }
}

static enum answer destination_expiry(struct call *call, struct actions *actions)
{
    switch (call->rev) {
    case REV_WAIT_SETUP_CONF: /* D17 */
        return clear_with_rel(call, actions, TIMER, ERROR, NOT_PROVIDED);
    case REV_WAIT_CALLED:
        if (call->phase == PHASE_SETUP) /* D21 */
            return clear_with_rel(call, actions, REJECTED, NO_COMPONENT, 0);
        call->rev = REV_IDLE; /* D51 */
        return give_error(actions, NOT_AVAILABLE);
    case REV_WAIT_ACTIVE_CONF: /* D41 */
        call->rev = REV_IDLE;
        return send_error(actions, IGNORED);
    default:
        return NO_ROW;
    }
}

static enum answer destination(struct call *call, struct actions *actions, const struct event *event)
{
    switch (event->kind) {
    case KIND_REQUEST:
        return destination_request(call, actions, event);
    case KIND_MESSAGE:
        switch (event->item) {
        case IAM:
            return destination_iam(call, actions, event);
        case REL:
            if (call->phase == PHASE_NULL)
                return NO_ROW;
            if (call->phase == PHASE_ANSWERED && call->rev == REV_WAIT_CALLED) /* D52 */
                return take_rel_waiting(call, actions, event);
            return take_rel(call, actions, event); /* G5, D24, D56 */
        case FAC:
            return destination_fac(call, actions, event);
        default:
            return NO_ROW;
        }
    case KIND_ACCESS:
        return destination_access(call, actions, event);
    case KIND_EXPIRY:
        return destination_expiry(call, actions);
    default:
        return NO_ROW;
    }
}

/* ---- The rows of both ---- */

static enum answer pass(struct call *call, uint32_t seconds)
{
    switch (call->phase) {
    case PHASE_SETUP: /* G2 */
        return APPLIED;
    case PHASE_ANSWERED: /* G3; sum and total are at most a year each, so neither can overflow */
        if (call->meter[CALLER] + call->meter[CALLED] + call->meter[FAR] + seconds > YEAR)
            return TOO_MUCH;
        if (call->total + seconds > YEAR)
            return TOO_MUCH;
        call->meter[call->payer] += seconds;
        call->total += seconds;
        return APPLIED;
    default:
        return NO_ROW;
    }
}

/* ---- Why there is no row ---- */

/* The phases in which a role has a row for an event, in some REV state: a bit each. */
enum phases {
    NEVER = 0,
    IN_NULL = 1 << PHASE_NULL,
    IN_SETUP = 1 << PHASE_SETUP,
    IN_ANSWERED = 1 << PHASE_ANSWERED,
    IN_BOTH = IN_SETUP | IN_ANSWERED
};

/* What a message carries, as the tables have it: nothing, an invoke or a result by its operation, an error, a reject. */
enum { CARRIES = 9 };

static unsigned carried(const struct event *message)
{
    static const uint8_t first[] = {[NO_COMPONENT] = 0, [INVOKE] = 0, [RESULT] = 3, [ERROR] = 7, [REJECT] = 8};

    return first[message->component] + (message->component == ERROR ? 0 : message->detail);
}

/* By role and request, message or access item. Columns: none; invoke SETUP, ACTIVE, CALLED; result the same; error; reject. */
static const uint8_t request_phases[2][1 + REQUEST_C] = {
    [ORIGINATING] = {IN_NULL, IN_NULL | IN_ANSWERED, IN_ANSWERED, IN_ANSWERED},
    [DESTINATION] = {NEVER, IN_BOTH, IN_BOTH, IN_BOTH},
};

static const uint8_t message_phases[2][1 + FAC][CARRIES] = {
    [ORIGINATING] =
        {
            [ANM] = {IN_SETUP, NEVER, NEVER, NEVER, IN_SETUP},
            [CON] = {IN_SETUP, NEVER, NEVER, NEVER, IN_SETUP},
            [REL] = {IN_BOTH, IN_BOTH, IN_BOTH, IN_BOTH, IN_BOTH, IN_BOTH, IN_BOTH, IN_BOTH, IN_BOTH},
            [FAC] = {IN_ANSWERED, IN_ANSWERED, IN_ANSWERED, IN_BOTH, NEVER, IN_ANSWERED, NEVER, IN_ANSWERED, IN_ANSWERED},
        },
    [DESTINATION] =
        {
            [IAM] = {IN_NULL, IN_NULL},
            [REL] = {IN_BOTH, IN_BOTH, IN_BOTH, IN_BOTH, IN_BOTH, IN_BOTH, IN_BOTH, IN_BOTH, IN_BOTH},
            [FAC] = {NEVER, IN_BOTH, IN_BOTH, IN_BOTH, NEVER, NEVER, IN_BOTH, IN_BOTH, IN_BOTH},
        },
};

static const uint8_t access_phases[2][1 + ACCESS_ANSWER] = {
    [ORIGINATING] = {[ACCESS_CLEAR] = IN_BOTH},
    [DESTINATION] = {[ACCESS_ACCEPT] = IN_BOTH,
                     [ACCESS_ERROR] = IN_BOTH,
                     [ACCESS_REJECT] = IN_BOTH,
                     [ACCESS_CLEAR] = IN_BOTH,
                     [ACCESS_ANSWER] = IN_SETUP},
};

static unsigned phases_of(enum role role, const struct event *event)
{
    switch (event->kind) {
    case KIND_REQUEST:
        return request_phases[role][event->item];
    case KIND_MESSAGE:
        return message_phases[role][event->item][carried(event)];
    case KIND_ACCESS:
        return access_phases[role][event->item];
    default: /* an expiry, or time */
        return IN_BOTH;
    }
}

static enum answer why_no_row(const struct call *call, const struct event *event)
{
    unsigned phases = phases_of(call->role, event);

    if (phases == NEVER)
        return NO_ROW;
    return phases & 1u << call->phase ? WRONG_STATE : WRONG_PHASE;
}

/* ---- Events in range ---- */

static enum answer find_row(struct call *call, struct actions *actions, const struct event *event)
{
    if (call->phase == PHASE_CLEARED)
        return NO_ROW;
    if (event->kind == KIND_TIME)
        return pass(call, event->seconds);
    return call->role == ORIGINATING ? originating(call, actions, event) : destination(call, actions, event);
}

/*
 * An opening comes to a call that was never opened or has cleared, every other event to one that was opened. Where the answer isn't APPLIED
 * the call is as before and there are no actions.
 */
static enum answer take(struct call *call, struct actions *actions, const struct event *event)
{
    enum answer answer;

    if (event->kind == KIND_OPENING) { /* G1: nothing of a call that has cleared is left */
        *call = (struct call){.role = event->item, .flags = event->bits, .own = event->own, .phase = PHASE_NULL};
        return APPLIED;
    }
    answer = find_row(call, actions, event);
    return answer == NO_ROW ? why_no_row(call, event) : answer;
}

/* ---- Text ---- */

/* Writes a string literal and gives the place after it. */
#define PUT(to, text) ((uint8_t *)memcpy((to), (text), sizeof(text) - 1) + (sizeof(text) - 1))

/* Writes the last `count` digits of a value. */
static uint8_t *put_digits(uint8_t *to, uint64_t value, unsigned count)
{
    for (unsigned place = count; place > 0; value /= 10)
        to[--place] = '0' + value % 10;
    return to + count;
}

static uint8_t *put_number(uint8_t *to, uint32_t value)
{
    unsigned count = 1;

    for (uint64_t limit = 10; value >= limit; limit *= 10)
        count++;
    return put_digits(to, value, count);
}

static uint8_t *put_user(uint8_t *to, struct digits digits)
{
    if (digits.international)
        *to++ = '+';
    return put_digits(to, digits.value, digits.count);
}

static uint8_t *put_phase(uint8_t *to, enum phase phase)
{
    switch (phase) {
    case PHASE_NONE:
        return PUT(to, " NONE");
    case PHASE_NULL:
        return PUT(to, " NULL");
    case PHASE_SETUP:
        return PUT(to, " SETUP");
    case PHASE_ANSWERED:
        return PUT(to, " ANSWERED");
    case PHASE_CLEARED:
        return PUT(to, " CLEARED");
    }
    return to;
}

static uint8_t *put_rev(uint8_t *to, enum rev rev)
{
    switch (rev) {
    case REV_IDLE:
        return PUT(to, " IDLE ");
    case REV_WAIT_SETUP:
        return PUT(to, " WAIT-SETUP ");
    case REV_WAIT_SETUP_CONF:
        return PUT(to, " WAIT-SETUP-CONF ");
    case REV_WAIT_CALLED:
        return PUT(to, " WAIT-CALLED ");
    case REV_WAIT_ANSWER:
        return PUT(to, " WAIT-ANSWER ");
    case REV_WAIT_ACTIVE:
        return PUT(to, " WAIT-ACTIVE ");
    case REV_WAIT_ACTIVE_CONF:
        return PUT(to, " WAIT-ACTIVE-CONF ");
    case REV_ACTIVE:
        return PUT(to, " ACTIVE ");
    }
    return to;
}

static uint8_t *put_operation(uint8_t *to, unsigned operation)
{
    switch (operation) {
    case OP_SETUP:
        return PUT(to, " SETUP");
    case OP_ACTIVE:
        return PUT(to, " ACTIVE");
    default:
        return PUT(to, " CALLED");
    }
}

static uint8_t *put_message(uint8_t *to, const struct action *action, const struct call *call)
{
    switch (action->message) {
    case IAM:
        to = PUT(to, "> IAM");
        break;
    case ANM:
        to = PUT(to, "> ANM");
        break;
    case REL:
        to = put_number(PUT(to, "> REL "), action->value);
        break;
    default: /* no row sends a CON */
        to = PUT(to, "> FAC");
        break;
    }
    switch (action->component) {
    case INVOKE:
        to = put_operation(PUT(to, " INVOKE"), action->detail);
        break;
    case RESULT:
        to = put_operation(PUT(to, " RESULT"), action->detail);
        break;
    case ERROR:
        to = put_number(PUT(to, " ERROR "), action->detail);
        break;
    default: /* nor a reject */
        break;
    }
    if (action->parts & PART_TRANSFER)
        to = PUT(to, " TRANSFER");
    if (action->parts & PART_ACCEPTED)
        to = PUT(to, " ACCEPTED");
    if (action->parts & PART_AS_TRANSFER)
        to = PUT(to, " AS-TRANSFER");
    if (action->parts & PART_PARTIAL)
        to = PUT(to, " PARTIAL");
    if (action->parts & PART_CALLING)
        to = put_user(PUT(to, " CALLING "), call->own);
    if (action->parts & PART_CALLED)
        to = put_user(PUT(to, " CALLED "), call->own);
    if (action->parts & PART_DURATION)
        to = put_number(PUT(to, " DURATION "), action->duration);
    return PUT(to, "\n");
}

static uint8_t *put_action(uint8_t *to, const struct action *action, const struct call *call)
{
    switch ((enum act)action->act) {
    case NOTIFY_ACCEPTED:
        return PUT(to, "> NOTIFY ACCEPTED\n");
    case OFFER_SETUP:
        return PUT(to, "> ACCESS SETUP\n");
    case OFFER_REV:
        return PUT(to, "> ACCESS ASK\n");
    case GIVE_ERROR:
        return PUT(put_number(PUT(to, "> ACCESS ERROR "), action->value), "\n");
    case GIVE_REL:
        return PUT(put_number(PUT(to, "> ACCESS REL "), action->value), "\n");
    case CHARGE_CALLING:
        return PUT(to, "> CHARGE CALLING\n");
    case CHARGE_CALLED:
        return PUT(to, "> CHARGE CALLED\n");
    case STOP:
        return PUT(to, "> STOP\n");
    case SEND:
        return put_message(to, action, call);
    }
    return to;
}

/* No answer is above 21. */
static uint8_t *put_answer(uint8_t *to, enum answer answer)
{
    if (answer >= 10)
        *to++ = answer >= 20 ? '2' : '1';
    *to++ = '0' + answer % 10;
    return to;
}

static uint8_t *put_line(uint8_t *to, unsigned ordinal, bool with_slot, unsigned slot, enum answer answer, const struct call *call)
{
    to = put_number(to, ordinal);
    *to++ = ' ';
    if (with_slot) {
        to = put_number(to, slot);
        *to++ = ' ';
    }
    to = put_answer(to, answer);
    to = put_phase(to, call->phase);
    to = put_rev(to, call->rev);
    to = put_number(to, call->meter[CALLER]);
    *to++ = ' ';
    to = put_number(to, call->meter[CALLED]);
    *to++ = ' ';
    to = put_number(to, call->meter[FAR]);
    *to++ = '\n';
    return to;
}

/* ---- The listing ---- */

/* A file being read: the bytes left, the calls so far, the records shown, and whether lines have slots, as far as is known. */
struct history {
    const uint8_t *at, *end;
    struct call calls[SLOTS];
    unsigned shown;
    bool slots;
};

static void begin(struct history *history, const uint8_t *file, size_t file_len, bool slots)
{
    memset(history, 0, sizeof *history);
    history->at = file;
    history->end = file + file_len;
    history->slots = slots;
}

/* Whether a record of kind 7 passes the framing before the reading stops: then all lines have slots. */
static bool has_slots(const uint8_t *file, size_t file_len)
{
    struct frame frame;

    while (file_len > 0 && read_frame(file, file_len, &frame) == APPLIED) {
        if (frame.in_slot)
            return true;
        file += frame.size;
        file_len -= frame.size;
    }
    return false;
}

/* Judges a well-framed record: 17 or 20 by its kind alone, then 3, then what the event gets. */
static enum answer judge(struct call *call, struct actions *actions, const uint8_t *plain)
{
    struct event event;

    event.kind = plain[2];
    if (event.kind == KIND_OPENING) {
        if (call->phase != PHASE_NONE && call->phase != PHASE_CLEARED)
            return IN_USE;
    } else if (call->phase == PHASE_NONE) {
        return BEFORE_OPENING;
    }
    return read_event(plain + 4, &event) == 0 ? take(call, actions, &event) : OUT_OF_RANGE;
}

/* Takes the next record and writes its line and actions. Reading stops after 5, 6 and 7, which show slot 0. */
static uint8_t *put_record(uint8_t *to, struct history *history)
{
    static const struct call no_call;
    const struct call *shown = history->calls;
    struct actions actions;
    struct frame frame;
    enum answer answer = read_frame(history->at, (size_t)(history->end - history->at), &frame);

    actions.count = 0;
    if (answer != APPLIED) {
        history->at = history->end;
        frame.slot = 0;
    } else {
        history->at += frame.size;
        history->slots |= frame.in_slot;
        if (frame.slot < SLOTS) {
            struct call *call = &history->calls[frame.slot];

            answer = judge(call, &actions, frame.plain);
            shown = call;
        } else {
            answer = NO_SUCH_SLOT;
            shown = &no_call;
        }
    }
    to = put_line(to, ++history->shown, history->slots, frame.slot, answer, shown);
    for (unsigned i = 0; i < actions.count; i++)
        to = put_action(to, &actions.list[i], shown);
    return to;
}

static uint8_t *put_end(uint8_t *to, const struct history *history)
{
    return PUT(put_number(PUT(to, "END "), history->shown), "\n");
}

/*
 * Whether the listing fits into `room` bytes, and whether its lines have slots. Each record is put into a scratch place for
 * its length, but only until the rest fits even if it is all of the shortest records with the longest text. The first record
 * of kind 7 puts slot 0 on the lines of those before it, which are plain: two bytes more on each.
 */
static int fits(const uint8_t *file, size_t file_len, size_t room, bool *slots)
{
    struct history history;
    uint8_t scratch[RECORD_TEXT];
    size_t length = sizeof "REV 1\n" - 1;
    bool had_slots;

    begin(&history, file, file_len, false);
    while (history.at != history.end) {
        size_t left = (size_t)(history.end - history.at);
        size_t records = (left + SHORTEST_RECORD - 1) / SHORTEST_RECORD;

        if (length + (history.slots ? 0 : 2 * history.shown) + records * RECORD_TEXT + END_TEXT <= room) {
            *slots = history.slots || has_slots(history.at, left);
            return 1;
        }
        if (length > room)
            return 0;
        had_slots = history.slots;
        length += (size_t)(put_record(scratch, &history) - scratch);
        if (history.slots && !had_slots)
            length += 2 * (history.shown - 1);
    }
    length += (size_t)(put_end(scratch, &history) - scratch);
    *slots = history.slots;
    return length <= room;
}

size_t plain_listing(const uint8_t *file, size_t file_len, uint8_t *out, size_t out_len)
{
    struct history history;
    uint8_t *to;
    bool slots;

    if (file_len > LONGEST_FILE || !fits(file, file_len, out_len, &slots))
        return REFUSED;
    begin(&history, file, file_len, slots);
    to = PUT(out, "REV 1\n");
    while (history.at != history.end)
        to = put_record(to, &history);
    return (size_t)(put_end(to, &history) - out);
}

/* ---- Writing ---- */

static uint8_t *store(uint8_t *to, unsigned byte)
{
    *to = (uint8_t)byte;
    return to + 1;
}

/*
 * The least byte first, in one store: compilers for the machines that the bench is for make more of that than of four or
 * eight bytes, each shifted down and stored.
 */
_Static_assert(__BYTE_ORDER__ == __ORDER_LITTLE_ENDIAN__, "numbers are stored as they stand in memory");

static uint8_t *store_four(uint8_t *to, uint32_t value)
{
    memcpy(to, &value, sizeof value);
    return to + sizeof value;
}

static uint8_t *store_digits(uint8_t *to, struct digits digits)
{
    to = store(to, digits.count | (unsigned)digits.international << 7);
    memcpy(to, &digits.value, sizeof digits.value);
    return to + sizeof digits.value;
}

/* The length, of which the second byte is 0 in every record, and the kind. */
static uint8_t *store_head(uint8_t *to, unsigned length, enum kind kind)
{
    return store_four(to, length | (uint32_t)kind << 16);
}

/* 3, and which field of the record's body is the first that is out of its range, from 1. */
static uint32_t bad_field(unsigned ordinal)
{
    return OUT_OF_RANGE + 256 * ordinal;
}

uint32_t plain_write_opening(uint8_t role, uint8_t flags, bool own_international, uint8_t own_count, uint64_t own_value, uint8_t *out,
                             size_t out_len)
{
    struct digits own = {.value = own_value, .count = own_count, .international = own_international};

    if (role > DESTINATION)
        return bad_field(1);
    if (flags > 31)
        return bad_field(2);
    if (!digits_in_range(own))
        return bad_field(3);
    if (out_len < 15)
        return REFUSED;
    store_digits(store(store(store_head(out, 13, KIND_OPENING), role), flags), own);
    return APPLIED;
}

uint32_t plain_write_request(uint8_t request, bool called_international, uint8_t called_count, uint64_t called_value, uint8_t *out,
                             size_t out_len)
{
    struct digits called = {.value = called_value, .count = called_count, .international = called_international};

    if (request > REQUEST_C)
        return bad_field(1);
    if (request <= REQUEST_A ? !digits_in_range(called) : !digits_absent(called))
        return bad_field(2);
    if (out_len < 14)
        return REFUSED;
    store_digits(store(store_head(out, 12, KIND_REQUEST), request), called);
    return APPLIED;
}

uint32_t plain_write_message(uint8_t message, uint8_t cause, uint8_t component, uint8_t item, uint8_t parts, bool calling_international,
                             uint8_t calling_count, uint64_t calling_value, bool called_international, uint8_t called_count,
                             uint64_t called_value, uint32_t duration, uint8_t *out, size_t out_len)
{
    struct digits calling = {.value = calling_value, .count = calling_count, .international = calling_international};
    struct digits called = {.value = called_value, .count = called_count, .international = called_international};
    unsigned length = 7 + parts_length(parts);
    uint8_t *to;

    if (message < IAM || message > FAC)
        return bad_field(1);
    if (cause > 127)
        return bad_field(2);
    if (component > REJECT)
        return bad_field(3);
    if (!detail_in_range(component, item))
        return bad_field(4);
    if (!parts_in_range(parts))
        return bad_field(5);
    /* what is there and not named is a fault of the parts too */
    if ((!(parts & PART_CALLING) && !digits_absent(calling)) || (!(parts & PART_CALLED) && !digits_absent(called)) ||
        (!(parts & PART_DURATION) && duration != 0))
        return bad_field(5);
    if (parts & PART_CALLING && !digits_in_range(calling))
        return bad_field(6);
    if (parts & PART_CALLED && !digits_in_range(called))
        return bad_field(parts & PART_CALLING ? 7 : 6);
    if (out_len < 2 + length)
        return REFUSED;
    to = store_head(out, length, KIND_MESSAGE);
    to = store(store(store(store(store(to, message), cause), component), item), parts);
    if (parts & PART_CALLING)
        to = store_digits(to, calling);
    if (parts & PART_CALLED)
        to = store_digits(to, called);
    if (parts & PART_DURATION)
        store_four(to, duration);
    return APPLIED;
}

uint32_t plain_write_access(uint8_t told, uint8_t error, uint8_t *out, size_t out_len)
{
    if (told < ACCESS_ACCEPT || told > ACCESS_ANSWER)
        return bad_field(1);
    if (told != ACCESS_ERROR && error != 0)
        return bad_field(2);
    if (out_len < 6)
        return REFUSED;
    store(store(store_head(out, 4, KIND_ACCESS), told), error);
    return APPLIED;
}

uint32_t plain_write_expiry(uint8_t *out, size_t out_len)
{
    if (out_len < 4)
        return REFUSED;
    store_head(out, 2, KIND_EXPIRY);
    return APPLIED;
}

uint32_t plain_write_time(uint32_t seconds, uint8_t *out, size_t out_len)
{
    if (seconds > DAY)
        return bad_field(1);
    if (out_len < 8)
        return REFUSED;
    store_four(store_head(out, 6, KIND_TIME), seconds);
    return APPLIED;
}

uint32_t plain_write_slot(uint16_t slot, const uint8_t *record, size_t record_len, uint8_t *out, size_t out_len)
{
    enum answer framed = read_plain(record, record_len);
    struct event event;
    unsigned length, bad;

    if (framed != APPLIED)
        return framed;
    event.kind = record[2];
    bad = read_event(record + 4, &event);
    if (bad != 0)
        return bad_field(bad);
    length = two_bytes(record);
    if (out_len < SLOT_BYTES + 2 + length)
        return REFUSED;
    store_head(out, SLOT_BYTES + length, KIND_IN_SLOT);
    memcpy(out + 4, &slot, sizeof slot);
    memcpy(out + SLOT_BYTES, record, 2 + length);
    return APPLIED;
}
