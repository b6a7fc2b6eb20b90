/*
 * Why there was no row, asked of the library: the table of docs/ROWS.md, printed. Every event comes to every place of both roles, which is
 * a phase and a REV state and is reached by a few records from an opening; the listing of all of them gives the number of the last.
 *
 * Each place is reached in two ways and each event is tried with two settings of its fields, and all four get the same: a row, or the same
 * number. So do an event before the opening (17) and an opening at each place (20, and a row where the call has cleared), also with a bad
 * field. All of it is tried by plain records and in a slot, and gets the same. The status is 1 where that is not so, or a place is not
 * reached.
 */
#include "rev.h"

#include <stdio.h>
#include <stdlib.h>
#include <string.h>

enum kind { OPENING = 1, REQUEST, MESSAGE, ACCESS, EXPIRY, TIME };
enum message { IAM = 1, ANM, CON, REL, FAC };
enum component { NONE, INVOKE, RESULT, ERROR, REJECT };
enum operation { SETUP = 1, ACTIVE, CALLED };
enum access { ACCEPT = 1, GIVE_ERROR, GIVE_REJECT, CLEAR, ANSWER };
enum number {
    ROW = 0,
    NEVER = 1,
    TOO_MUCH = 2,
    OUT_OF_RANGE = 3,
    PART_ABSENT = 4,
    WRONG_PHASE = 15,
    WRONG_STATE,
    EARLY,
    IN_USE = 20
};

/* What of an event decides whether there is a row; and its name in the table. */
struct event {
    const char *name;
    uint8_t kind, item, component, detail;
};

#define CARRIED(message)                                                                                                       \
    {#message " no component", MESSAGE, message, NONE, 0}, {#message " invoke SETUP", MESSAGE, message, INVOKE, SETUP},        \
        {#message " invoke ACTIVE", MESSAGE, message, INVOKE, ACTIVE}, {#message " invoke CALLED", MESSAGE, message, INVOKE, CALLED}, \
        {#message " result SETUP", MESSAGE, message, RESULT, SETUP}, {#message " result ACTIVE", MESSAGE, message, RESULT, ACTIVE},   \
        {#message " result CALLED", MESSAGE, message, RESULT, CALLED}, {#message " error (any)", MESSAGE, message, ERROR, 0},  \
        {#message " reject", MESSAGE, message, REJECT, 0}

static const struct event events[] = {
    {"request 0", REQUEST, 0, 0, 0},
    {"request A", REQUEST, 1, 0, 0},
    {"request B", REQUEST, 2, 0, 0},
    {"request C", REQUEST, 3, 0, 0},
    CARRIED(IAM),
    CARRIED(ANM),
    CARRIED(CON),
    CARRIED(REL),
    CARRIED(FAC),
    {"access accept", ACCESS, ACCEPT, 0, 0},
    {"access error (any)", ACCESS, GIVE_ERROR, 0, 0},
    {"access reject", ACCESS, GIVE_REJECT, 0, 0},
    {"access clear", ACCESS, CLEAR, 0, 0},
    {"access answer", ACCESS, ANSWER, 0, 0},
    {"expiry", EXPIRY, 0, 0, 0},
    {"time", TIME, 0, 0, 0},
};

enum { EVENTS = sizeof events / sizeof events[0], STEPS = 4, RECORDS = STEPS + 2, WORD = 32, LIST = 128, SLOT = 63 };

/* The records from an opening to a place, by the names of their events. */
struct way {
    uint8_t flags;
    const char *steps[STEPS];
};

struct place {
    const char *phase, *state;
    struct way ways[2];
};

static const char *const phases[] = {"NULL", "SETUP", "ANSWERED", "CLEARED"};

enum { PHASES = sizeof phases / sizeof phases[0], PLACES = 10 };

/* Flags: 1 transfer, 2 option, 4 subscribed, 8 interaction allowed, 16 case D. */
static const struct {
    const char *name;
    struct place places[PLACES];
} roles[] = {
    {"originating",
     {
         {"NULL", "IDLE", {{0, {0}}, {31, {0}}}},
         {"SETUP", "IDLE", {{0, {"request 0"}}, {31, {"request 0", "time"}}}},
         {"SETUP", "WAIT-SETUP", {{8, {"request A"}}, {31, {"request A"}}}},
         {"SETUP", "WAIT-ANSWER", {{8, {"request 0", "FAC invoke CALLED"}}, {31, {"request 0", "FAC invoke CALLED"}}}},
         {"ANSWERED", "IDLE", {{0, {"request 0", "ANM no component"}}, {31, {"request 0", "CON no component", "time"}}}},
         {"ANSWERED", "WAIT-ACTIVE",
          {{8, {"request 0", "ANM no component", "request B"}}, {31, {"request 0", "CON no component", "request B"}}}},
         {"ANSWERED", "ACTIVE", {{8, {"request A", "ANM result SETUP"}}, {31, {"request 0", "ANM no component", "FAC invoke CALLED"}}}},
         {"CLEARED", "IDLE", {{0, {"request A"}}, {31, {"request A", "ANM result SETUP", "access clear"}}}},
     }},
    {"destination",
     {
         {"NULL", "IDLE", {{0, {0}}, {31, {0}}}},
         {"SETUP", "IDLE", {{0, {"IAM no component"}}, {15, {"IAM no component", "time"}}}},
         {"SETUP", "WAIT-SETUP-CONF", {{8, {"IAM invoke SETUP"}}, {31, {"IAM invoke SETUP"}}}},
         {"SETUP", "WAIT-CALLED", {{24, {"IAM no component"}}, {31, {"IAM no component", "request C"}}}},
         {"SETUP", "WAIT-ANSWER", {{24, {"IAM no component", "FAC result CALLED"}}, {31, {"IAM no component", "FAC result CALLED"}}}},
         {"ANSWERED", "IDLE", {{0, {"IAM no component", "access answer"}}, {15, {"IAM no component", "access answer", "time"}}}},
         {"ANSWERED", "WAIT-ACTIVE-CONF",
          {{8, {"IAM no component", "access answer", "FAC invoke ACTIVE"}},
           {15, {"IAM no component", "access answer", "FAC invoke ACTIVE"}}}},
         {"ANSWERED", "WAIT-CALLED",
          {{8, {"IAM no component", "access answer", "request B"}}, {15, {"IAM no component", "access answer", "request C"}}}},
         {"ANSWERED", "ACTIVE",
          {{8, {"IAM invoke SETUP", "access accept"}}, {31, {"IAM no component", "FAC result CALLED", "access answer"}}}},
         {"CLEARED", "IDLE", {{0, {"IAM invoke SETUP"}}, {31, {"IAM invoke SETUP", "access accept", "REL error (any)"}}}},
     }},
};

enum { ROLES = sizeof roles / sizeof roles[0] };

#define OWN_NUMBER false, 7, 5550100
#define ANOTHER_NUMBER true, 15, 999999999999999
#define NO_NUMBER false, 0, 0

/* The settings of the fields that decide nothing: as few as there can be, or all; and one field out of its range. */
enum setting { BARE, FULL, BAD, SETTINGS = BAD };

static void stop(const char *what)
{
    printf("classes: %s\n", what);
    exit(1);
}

/* A file that grows by records. */
struct file {
    uint8_t bytes[RECORDS * REV_RECORD];
    size_t length, records;
};

static void take(struct file *file, uint32_t given)
{
    if (REV_NUMBER(given) != REV_WRITTEN)
        stop("a record of its own is refused");
    file->length += rev_record_length(file->bytes + file->length);
    file->records++;
}

static void open_call(struct file *file, uint8_t role, uint8_t flags, enum setting setting)
{
    uint8_t *at = file->bytes + file->length;

    take(file, rev_write_opening(role, flags, OWN_NUMBER, at, REV_RECORD));
    if (setting == BAD)
        at[4] = 2;
}

/* The bad field is the first of the record's body; an expiry has none. */
static void add(struct file *file, const struct event *e, enum setting setting)
{
    uint8_t *at = file->bytes + file->length;
    bool full = setting == FULL;

    switch (e->kind) {
    case REQUEST:
        if (e->item > 1)
            take(file, rev_write_request(e->item, NO_NUMBER, at, REV_RECORD));
        else if (full)
            take(file, rev_write_request(e->item, ANOTHER_NUMBER, at, REV_RECORD));
        else
            take(file, rev_write_request(e->item, OWN_NUMBER, at, REV_RECORD));
        break;
    case MESSAGE: {
        uint8_t detail = e->component != ERROR ? e->detail : full ? 200 : 4;

        if (full)
            take(file, rev_write_message(e->item, 127, e->component, detail, 127, OWN_NUMBER, ANOTHER_NUMBER, 40, at, REV_RECORD));
        else
            take(file, rev_write_message(e->item, 0, e->component, detail, 0, NO_NUMBER, NO_NUMBER, 0, at, REV_RECORD));
        break;
    }
    case ACCESS:
        take(file, rev_write_access(e->item, e->item != GIVE_ERROR ? 0 : full ? 200 : 4, at, REV_RECORD));
        break;
    case EXPIRY:
        take(file, rev_write_expiry(at, REV_RECORD));
        break;
    default:
        take(file, rev_write_time(full ? 86400 : 0, at, REV_RECORD));
        break;
    }
    if (setting == BAD && e->kind != EXPIRY)
        memset(at + 4, 0xFF, e->kind == TIME ? 4 : 1);
}

static const struct event *event_named(const char *name)
{
    for (size_t i = 0; i < EVENTS; i++)
        if (strcmp(events[i].name, name) == 0)
            return &events[i];
    stop("a step has no event");
    return NULL;
}

/* A line of a listing. */
struct line {
    unsigned number;
    char phase[WORD], state[WORD];
};

/* The word at a place of a listing; gives the place of the next. */
static const char *read_word(const char *at, char *word)
{
    size_t length = strcspn(at, " \n");

    if (length >= WORD)
        stop("a word of a listing is too long");
    memcpy(word, at, length);
    word[length] = '\0';
    return at[length] == ' ' ? at + length + 1 : at + length;
}

/* The file with each of its records in a slot. By hand: the writer of such records refuses one with a bad field. */
static struct file in_slot(const struct file *plain)
{
    struct file file = {.records = plain->records};

    for (size_t from = 0, size; from < plain->length; from += size) {
        uint8_t head[] = {0, 0, 7, 0, SLOT, 0};

        size = rev_record_length(plain->bytes + from);
        head[0] = (uint8_t)(size + 4);
        memcpy(file.bytes + file.length, head, sizeof head);
        memcpy(file.bytes + file.length + sizeof head, plain->bytes + from, size);
        file.length += sizeof head + size;
    }
    return file;
}

/* The line of the file's last record in its listing, which has slots or none. */
static struct line read_last_line(const struct file *file, bool slots)
{
    static char listing[4096];
    size_t length = rev_listing(file->bytes, file->length, (uint8_t *)listing, sizeof listing - 1);
    char ordinal[WORD], word[WORD];

    if (length == REV_TOO_LONG)
        stop("a listing is too long");
    listing[length] = '\0';
    snprintf(ordinal, sizeof ordinal, "%zu", file->records);
    for (const char *at = listing; at != NULL; at = strchr(at, '\n')) {
        struct line line;

        at += *at == '\n';
        if (strncmp(at, ordinal, strlen(ordinal)) != 0 || at[strlen(ordinal)] != ' ')
            continue;
        at = read_word(at, word);
        if (slots) {
            at = read_word(at, word);
            if (strtoul(word, NULL, 10) != SLOT)
                stop("a line lacks its slot");
        }
        at = read_word(at, word);
        line.number = (unsigned)strtoul(word, NULL, 10);
        read_word(read_word(at, line.phase), line.state);
        return line;
    }
    stop("a listing lacks its last record");
    abort();
}

/* The same by plain records and in a slot: "its answer depends on that slot's call and the event alone" (02 #107). */
static struct line last_line(const struct file *file)
{
    struct file other = in_slot(file);
    struct line line = read_last_line(file, false), there = read_last_line(&other, true);

    if (line.number != there.number || strcmp(line.phase, there.phase) != 0 || strcmp(line.state, there.state) != 0) {
        printf("classes: in a slot %u, %s %s, and else %u, %s %s\n", there.number, there.phase, there.state, line.number, line.phase,
               line.state);
        exit(1);
    }
    return line;
}

static bool is_at(const struct line *line, const struct place *place)
{
    return strcmp(line->phase, place->phase) == 0 && strcmp(line->state, place->state) == 0;
}

/* The file that leads to a place. Each of its records is accepted, so that the last shows the place. */
static struct file reach(uint8_t role, const struct place *place, const struct way *way)
{
    struct file file = {.length = 0};
    struct line line;

    open_call(&file, role, way->flags, BARE);
    for (size_t i = 0; i < STEPS && way->steps[i] != NULL; i++) {
        add(&file, event_named(way->steps[i]), FULL);
        if (last_line(&file).number != ROW)
            stop("a step to a place is refused");
    }
    line = last_line(&file);
    if (line.number != ROW || !is_at(&line, place)) {
        printf("classes: %s, %s %s is not reached: %s %s\n", roles[role].name, place->phase, place->state, line.phase, line.state);
        exit(1);
    }
    return file;
}

/* What an event gets after a file: ROW for each number that a row gives, else the number. The call stays where it is refused. */
static unsigned answer(const struct file *before, const struct place *place, const struct event *event, enum setting setting)
{
    struct file file = *before;
    struct line line;

    add(&file, event, setting);
    line = last_line(&file);
    if (line.number != ROW && !is_at(&line, place))
        stop("a refused event changes the call");
    return line.number == TOO_MUCH || line.number == PART_ABSENT ? ROW : line.number;
}

/* The same answer in both ways and with both settings. */
static unsigned class_of(uint8_t role, const struct place *place, const struct event *event)
{
    unsigned first = 0;

    for (unsigned i = 0; i < 2 * SETTINGS; i++) {
        struct file before = reach(role, place, &place->ways[i / SETTINGS]);
        unsigned number = answer(&before, place, event, i % SETTINGS == 0 ? BARE : FULL);

        if (i == 0)
            first = number;
        if (number != first || (number != ROW && number != NEVER && number != WRONG_PHASE && number != WRONG_STATE)) {
            printf("classes: %s, %s %s, %s: %u and %u\n", roles[role].name, place->phase, place->state, event->name, first, number);
            exit(1);
        }
    }
    return first;
}

/* Adds to a list of names, the first after `head`. */
static void name(char *list, const char *head, const char *word)
{
    strcat(list, *list == '\0' ? head : ", ");
    strcat(list, word);
}

/* A cell: the REV states of the phase that have a row, and the others with their number; or the number alone where none has one. */
static void print_cell(uint8_t role, const char *phase, const struct event *event)
{
    static const unsigned numbers[] = {NEVER, WRONG_PHASE, WRONG_STATE};
    enum { NUMBERS = sizeof numbers / sizeof numbers[0] };
    char rows[LIST] = "", others[NUMBERS][LIST] = {"", "", ""}, head[8];
    const char *between = "";

    for (size_t i = 0; i < PLACES && roles[role].places[i].phase != NULL; i++) {
        const struct place *place = &roles[role].places[i];
        unsigned number;

        if (strcmp(place->phase, phase) != 0)
            continue;
        number = class_of(role, place, event);
        if (number == ROW)
            name(rows, "row: ", place->state);
        for (size_t n = 0; n < NUMBERS; n++)
            if (number == numbers[n]) {
                snprintf(head, sizeof head, "%u: ", number);
                name(others[n], head, place->state);
            }
    }
    printf(" %s", rows);
    if (*rows != '\0')
        between = "; ";
    for (size_t n = 0; n < NUMBERS; n++)
        if (*others[n] != '\0') {
            if (*rows == '\0')
                printf("%s%u", between, numbers[n]);
            else
                printf("%s%s", between, others[n]);
            between = "; ";
        }
    printf(" |");
}

/*
 * 17 for each event before the opening, and 20 for an opening at each place where the call has not cleared, whatever their fields are. Where
 * it has cleared, an opening has a row, and the call begins anew; a bad field of it is 3.
 */
static void check_openings(void)
{
    static const struct place before_opening = {.phase = "NONE", .state = "IDLE"}, anew = {.phase = "NULL", .state = "IDLE"};
    static const struct file nothing = {.length = 0};

    for (size_t i = 0; i < EVENTS; i++)
        for (enum setting setting = BARE; setting <= BAD; setting++)
            if (answer(&nothing, &before_opening, &events[i], setting) != EARLY) {
                printf("classes: before the opening, %s: not %u\n", events[i].name, EARLY);
                exit(1);
            }
    for (size_t i = 0; i < ROLES * PLACES * 2 * 2; i++) {
        uint8_t role = i % ROLES, bad = i / ROLES % 2;
        const struct place *place = &roles[role].places[i / ROLES / 4], *after = place;
        unsigned wanted = IN_USE;
        struct file file;
        struct line line;

        if (place->phase == NULL)
            continue;
        file = reach(role, place, &place->ways[i / ROLES / 2 % 2]);
        open_call(&file, role, 8, bad ? BAD : BARE);
        line = last_line(&file);
        if (strcmp(place->phase, "CLEARED") == 0) {
            wanted = bad ? OUT_OF_RANGE : ROW;
            after = bad ? place : &anew;
        }
        if (line.number != wanted || !is_at(&line, after)) {
            printf("classes: %s, %s %s, an opening: not %u, or not %s %s\n", roles[role].name, place->phase, place->state, wanted,
                   after->phase, after->state);
            exit(1);
        }
    }
}

int main(void)
{
    check_openings();
    printf("| role | event |");
    for (size_t i = 0; i < PHASES; i++)
        printf(" %s |", phases[i]);
    printf("\n|---|---|---|---|---|---|\n");
    for (uint8_t role = 0; role < ROLES; role++)
        for (size_t i = 0; i < EVENTS; i++) {
            printf("| %s | %s |", roles[role].name, events[i].name);
            for (size_t p = 0; p < PHASES; p++)
                print_cell(role, phases[p], &events[i]);
            printf("\n");
        }
    return 0;
}
