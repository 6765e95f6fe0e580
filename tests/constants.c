/*
 * Shows by running the library that each constant of dock.h is what the library means by it.
 *
 * Every buffer is a block of the heap of its own, exactly as long as the library is told, so that an
 * access beyond it is seen: by valgrind the library's, by the sanitizers those of this program.
 */
#include "dock.h"
#include "image.h"
#include <stdio.h>
#include <stdlib.h>
#include <string.h>

#define ALL (DOCK_RIGHT_READ + DOCK_RIGHT_WRITE + DOCK_RIGHT_PASS_ON)

/* What the checks are about, and how many have held. */

static const char *group = "start";
static unsigned passed, passed_before;

static void fail(int line, const char *what)
{
    fprintf(stderr, "constants.c:%d: %s: %s\n", line, group, what);
    exit(1);
}

static void holds(int line, int condition, const char *what)
{
    if (!condition)
        fail(line, what);
    passed++;
}

static void equal(int line, unsigned long found, unsigned long wanted, const char *what)
{
    if (found != wanted) {
        fprintf(stderr, "constants.c:%d: %s: %s is %lu, not %lu\n", line, group, what, found, wanted);
        exit(1);
    }
    passed++;
}

#define HOLDS(condition) holds(__LINE__, (condition), #condition)
#define EQUAL(found, wanted) equal(__LINE__, (found), (wanted), #found)

static void begin(const char *name)
{
    group = name;
    passed_before = passed;
}

static void end(void)
{
    printf("%s: %u checks\n", group, passed - passed_before);
    fflush(stdout); /* before a failure says why */
}

/* Memory. */

static void *block(size_t bytes, int byte)
{
    void *made = malloc(bytes ? bytes : 1);
    if (!made)
        fail(__LINE__, "no memory");
    return memset(made, byte, bytes);
}

static void *copy(const void *from, size_t bytes)
{
    return memcpy(block(bytes, 0), from, bytes);
}

static int all(const uint8_t *bytes, size_t length, int byte)
{
    size_t i;
    for (i = 0; i < length; i++)
        if (bytes[i] != byte)
            return 0;
    return 1;
}

/* The dock that most checks are about. */

static uint8_t *store, *sheet;
static uint16_t *request, *answer;

static uint8_t *sheet_of_store(unsigned number)
{
    return store + (size_t)DOCK_SHEET * number;
}

static void start(void)
{
    EQUAL(dock_empty(tables, DOCK_TABLES, store, DOCK_STORE), DOCK_ACCEPTED);
    HOLDS(all(store, DOCK_STORE, 0));
    EQUAL(dock_in_order(tables, DOCK_TABLES), DOCK_ACCEPTED);
}

/*
 * Sends a request, with a sheet buffer full of a byte, and checks the answer. A refusal must change
 * nothing; 12 may drop tickets. Only a write, a take and a give back may change the store, only a
 * read the sheet buffer.
 */
static void serve_one(int line, struct dock_request r, int byte, unsigned result, unsigned ticket, unsigned recipient)
{
    uint8_t *tables_before = copy(tables, DOCK_TABLES);
    uint8_t *store_before = copy(store, DOCK_STORE);
    uint16_t numbers[DOCK_REQUEST] = {r.pad,       r.program, r.op,    r.ticket, r.topad,
                                      r.toprogram, r.first,   r.count, r.rights};
    unsigned returned;

    memcpy(request, numbers, sizeof numbers);
    memset(sheet, byte, DOCK_SHEET);
    memset(answer, 0xee, DOCK_ANSWER * sizeof *answer);
    returned = dock_step(tables, DOCK_TABLES, store, DOCK_STORE, sheet, DOCK_SHEET, request, DOCK_REQUEST, answer,
                         DOCK_ANSWER);
    equal(line, returned, result, "the result");
    if (result == DOCK_NOT_IN_ORDER) {
        holds(line, all((uint8_t *)answer, DOCK_ANSWER * sizeof *answer, 0xee), "the answer untouched");
    } else {
        equal(line, answer[0], result, "the answer's result");
        equal(line, answer[1], ticket, "the asker's new number");
        equal(line, answer[2], recipient, "the recipient's new number");
    }
    holds(line, memcmp(request, numbers, sizeof numbers) == 0, "the request untouched");
    if (result != DOCK_NO_ENTRY && (result != DOCK_ACCEPTED || r.op == DOCK_READ || r.op == DOCK_WRITE))
        holds(line, memcmp(tables, tables_before, DOCK_TABLES) == 0, "the tables untouched");
    if (result != DOCK_ACCEPTED || r.op == DOCK_PASS || r.op == DOCK_RECALL || r.op == DOCK_READ)
        holds(line, memcmp(store, store_before, DOCK_STORE) == 0, "the store untouched");
    if (result != DOCK_ACCEPTED || r.op != DOCK_READ)
        holds(line, all(sheet, DOCK_SHEET, byte), "the sheet buffer untouched");
    free(tables_before);
    free(store_before);
}

#define ACCEPTED(r, ticket, recipient) serve_one(__LINE__, (r), 0x11, DOCK_ACCEPTED, (ticket), (recipient))
#define REFUSED(r, result) serve_one(__LINE__, (r), 0x22, (result), 0, 0)
#define WRITTEN(r, byte) serve_one(__LINE__, (r), (byte), DOCK_ACCEPTED, 0, 0)

/* Accepted, and the sheet buffer is full of the byte afterwards. */
#define READS(r, byte)                                                                                                 \
    do {                                                                                                               \
        serve_one(__LINE__, (r), 0x33, DOCK_ACCEPTED, 0, 0);                                                           \
        HOLDS(all(sheet, DOCK_SHEET, (byte)));                                                                         \
    } while (0)

/* Requests. */

/* Two programs of pad 0, and one each of pads 1 and 2. */
static const struct who capture = {0, 0}, viewer = {0, 1}, nurse = {1, 0}, next = {2, 3};

static struct dock_request request_of(const uint16_t n[DOCK_REQUEST])
{
    struct dock_request r = {n[0], n[1], n[2], n[3], n[4], n[5], n[6], n[7], n[8]};
    return r;
}

static struct dock_request take(struct who by, uint16_t count, uint16_t rights)
{
    struct dock_request r = {.pad = by.pad, .program = by.program, .op = DOCK_TAKE, .count = count, .rights = rights};
    return r;
}

static struct dock_request pass(struct who by, uint16_t ticket, struct who to, uint16_t first, uint16_t count,
                                uint16_t rights)
{
    struct dock_request r = {.pad = by.pad, .program = by.program, .op = DOCK_PASS, .ticket = ticket};
    r.topad = to.pad;
    r.toprogram = to.program;
    r.first = first;
    r.count = count;
    r.rights = rights;
    return r;
}

static struct dock_request recall(struct who by, uint16_t ticket)
{
    struct dock_request r = {.pad = by.pad, .program = by.program, .op = DOCK_RECALL, .ticket = ticket};
    return r;
}

static struct dock_request give_back(struct who by, uint16_t ticket)
{
    struct dock_request r = {.pad = by.pad, .program = by.program, .op = DOCK_GIVE_BACK, .ticket = ticket};
    return r;
}

static struct dock_request read_at(struct who by, uint16_t ticket, uint16_t first)
{
    struct dock_request r = {.pad = by.pad, .program = by.program, .op = DOCK_READ, .ticket = ticket, .first = first};
    return r;
}

static struct dock_request write_at(struct who by, uint16_t ticket, uint16_t first)
{
    struct dock_request r = {.pad = by.pad, .program = by.program, .op = DOCK_WRITE, .ticket = ticket, .first = first};
    return r;
}

/* What is in the image. */

/* Where a live ticket is. The place is free to the library, so that it is looked for by its number. */
static size_t ticket_at(int line, struct who who, unsigned number)
{
    unsigned place;
    for (place = 0; place < DOCK_PLACES; place++) {
        size_t at = place_at(who, place);
        if (get(at + DOCK_TICKET_KIND_AT) != DOCK_KIND_FREE && get(at + DOCK_TICKET_NUMBER_AT) == number)
            return at;
    }
    fail(line, "no such ticket in the image");
    return 0;
}

static size_t entry_at(int line, struct name name)
{
    unsigned place;
    for (place = 0; place < DOCK_ENTRIES; place++) {
        size_t at = entry_place_at(place);
        if (get(at + DOCK_ENTRY_LIVE_AT) == 1 && is_name(at + DOCK_ENTRY_NAME_AT, name))
            return at;
    }
    fail(line, "no such entry in the image");
    return 0;
}

static unsigned live_tickets(void)
{
    struct who who;
    unsigned place, live = 0;
    for (who.pad = 0; who.pad < DOCK_PADS; who.pad++)
        for (who.program = 0; who.program < DOCK_PROGRAMS; who.program++)
            for (place = 0; place < DOCK_PLACES; place++)
                live += get(place_at(who, place) + DOCK_TICKET_KIND_AT) != DOCK_KIND_FREE;
    return live;
}

static unsigned live_entries(void)
{
    unsigned place, live = 0;
    for (place = 0; place < DOCK_ENTRIES; place++)
        live += get(entry_place_at(place) + DOCK_ENTRY_LIVE_AT);
    return live;
}

static unsigned sum_of_lasts(void)
{
    struct who who;
    unsigned sum = 0;
    for (who.pad = 0; who.pad < DOCK_PADS; who.pad++)
        for (who.program = 0; who.program < DOCK_PROGRAMS; who.program++)
            sum += get(last_at(who));
    return sum;
}

/* Lengths. dock_step and dock_serve take the same five buffers. */

typedef uint16_t serving(uint8_t *, size_t, uint8_t *, size_t, uint8_t *, size_t, const uint16_t *, size_t, uint16_t *,
                         size_t);

enum { BUFFERS = 5 };
static const size_t element[BUFFERS] = {1, 1, 1, sizeof(uint16_t), sizeof(uint16_t)};

/* Calls it with buffers of these lengths. Where it is not accepted, it must have written nothing. */
static unsigned called(serving *call, const size_t length[BUFFERS])
{
    static const uint16_t take_one[DOCK_REQUEST] = {0, 0, DOCK_TAKE, 0, 0, 0, 0, 1, DOCK_RIGHT_READ};
    void *buffer[BUFFERS], *before[BUFFERS];
    unsigned result;
    size_t b, i;

    for (b = 0; b < BUFFERS; b++)
        buffer[b] = block(length[b] * element[b], b == 0 ? 0 : 0x44); /* tables of zeros are empty */
    for (i = 0; i < length[3]; i++)
        ((uint16_t *)buffer[3])[i] = take_one[i % DOCK_REQUEST];
    for (b = 0; b < BUFFERS; b++)
        before[b] = copy(buffer[b], length[b] * element[b]);
    result = call(buffer[0], length[0], buffer[1], length[1], buffer[2], length[2], buffer[3], length[3], buffer[4],
                  length[4]);
    for (b = 0; b < BUFFERS; b++) {
        if (result != DOCK_ACCEPTED)
            HOLDS(memcmp(buffer[b], before[b], length[b] * element[b]) == 0);
        free(buffer[b]);
        free(before[b]);
    }
    return result;
}

/* Accepted with the right lengths; 13 with each of the five one shorter, one longer, and 0. */
static void lengths_of(serving *call, size_t n)
{
    const size_t right[BUFFERS] = {DOCK_TABLES, DOCK_STORE, DOCK_SHEET * n, DOCK_REQUEST * n, DOCK_ANSWER * n};
    size_t length[BUFFERS], b;

    EQUAL(called(call, right), DOCK_ACCEPTED);
    for (b = 0; b < BUFFERS; b++) {
        memcpy(length, right, sizeof length);
        length[b] = right[b] - 1;
        EQUAL(called(call, length), DOCK_LENGTH);
        length[b] = right[b] + 1;
        EQUAL(called(call, length), DOCK_LENGTH);
        length[b] = 0;
        EQUAL(called(call, length), DOCK_LENGTH);
    }
}

/* dock_empty with tables and a store full of 1s, of these lengths. */
static void emptied(size_t tables_length, size_t store_length, unsigned result)
{
    uint8_t *t = block(tables_length, 1), *s = block(store_length, 1);
    uint8_t *kept = tables;

    EQUAL(dock_empty(t, tables_length, s, store_length), result);
    if (tables_length != DOCK_TABLES) {
        HOLDS(all(t, tables_length, 1));
    } else {
        EQUAL(dock_in_order(t, tables_length), DOCK_ACCEPTED);
        tables = t; /* read the image of these */
        EQUAL(live_tickets(), 0);
        EQUAL(live_entries(), 0);
        EQUAL(sum_of_lasts(), 0);
        tables = kept;
    }
    HOLDS(all(s, store_length, result == DOCK_ACCEPTED ? 0 : 1));
    free(t);
    free(s);
}

static void lengths(void)
{
    size_t length;

    begin("lengths");
    EQUAL(dock_tables_length(), DOCK_TABLES);
    lengths_of(dock_step, 1);
    lengths_of(dock_serve, 1);
    lengths_of(dock_serve, 3);
    emptied(DOCK_TABLES, DOCK_STORE, DOCK_ACCEPTED);
    emptied(DOCK_TABLES - 1, DOCK_STORE, DOCK_LENGTH);
    emptied(DOCK_TABLES + 1, DOCK_STORE, DOCK_LENGTH);
    emptied(DOCK_TABLES, DOCK_STORE - 1, DOCK_LENGTH);
    emptied(DOCK_TABLES, DOCK_STORE + 1, DOCK_LENGTH);
    for (length = DOCK_TABLES - 1; length <= DOCK_TABLES + 1; length++) {
        uint8_t *t = block(length, 0);
        EQUAL(dock_in_order(t, length), length == DOCK_TABLES ? DOCK_ACCEPTED : DOCK_LENGTH);
        EQUAL(dock_check(t, length, 0, 0, 1, 0, DOCK_RIGHT_READ), length == DOCK_TABLES ? DOCK_NO_ENTRY : DOCK_LENGTH);
        HOLDS(all(t, length, 0));
        free(t);
    }
    end();
}

/* Each operation is accepted once, with an effect that no other has. */
static void operations(void)
{
    begin("operations");
    start();
    ACCEPTED(take(capture, 4, ALL), 1, 0); /* a number for the asker alone */
    WRITTEN(write_at(capture, 1, 2), 65);  /* the sheet buffer's bytes in the store */
    HOLDS(all(sheet_of_store(2), DOCK_SHEET, 65));
    HOLDS(all(sheet_of_store(0), 2 * DOCK_SHEET, 0));
    HOLDS(all(sheet_of_store(3), DOCK_STORE - 3 * DOCK_SHEET, 0));
    READS(read_at(capture, 1, 2), 65); /* the store's bytes in the sheet buffer */
    READS(read_at(capture, 1, 1), 0);
    ACCEPTED(pass(capture, 1, viewer, 2, 1, DOCK_RIGHT_READ), 2, 1); /* a number for both */
    READS(read_at(viewer, 1, 0), 65);
    ACCEPTED(recall(capture, 2), 0, 0); /* what was lent is gone, the sheet as it was */
    REFUSED(read_at(viewer, 1, 0), DOCK_NO_TICKET);
    REFUSED(recall(capture, 2), DOCK_NO_TICKET);
    READS(read_at(capture, 1, 2), 65);
    ACCEPTED(give_back(capture, 1), 0, 0); /* the grant is gone, the sheet is zeros */
    REFUSED(read_at(capture, 1, 2), DOCK_NO_TICKET);
    HOLDS(all(store, DOCK_STORE, 0));
    end();
}

/* A grant of one right alone allows that and refuses the rest, on the pad and at the dock. */
static void rights(void)
{
    begin("rights");
    start();
    ACCEPTED(take(capture, 1, DOCK_RIGHT_READ), 1, 0);
    READS(read_at(capture, 1, 0), 0);
    REFUSED(write_at(capture, 1, 0), DOCK_RIGHT_LACKING);
    REFUSED(pass(capture, 1, viewer, 0, 1, DOCK_RIGHT_READ), DOCK_RIGHT_LACKING);
    EQUAL(dock_check(tables, DOCK_TABLES, 0, 0, 1, 0, DOCK_RIGHT_READ), DOCK_ACCEPTED);
    EQUAL(dock_check(tables, DOCK_TABLES, 0, 0, 1, 0, DOCK_RIGHT_WRITE), DOCK_RIGHT_LACKING);
    ACCEPTED(take(capture, 1, DOCK_RIGHT_WRITE), 2, 0);
    REFUSED(read_at(capture, 2, 0), DOCK_RIGHT_LACKING);
    WRITTEN(write_at(capture, 2, 0), 66);
    HOLDS(all(sheet_of_store(1), DOCK_SHEET, 66));
    REFUSED(pass(capture, 2, viewer, 0, 1, DOCK_RIGHT_WRITE), DOCK_RIGHT_LACKING);
    EQUAL(dock_check(tables, DOCK_TABLES, 0, 0, 2, 1, DOCK_RIGHT_READ), DOCK_RIGHT_LACKING);
    EQUAL(dock_check(tables, DOCK_TABLES, 0, 0, 2, 1, DOCK_RIGHT_WRITE), DOCK_ACCEPTED);
    ACCEPTED(take(capture, 1, DOCK_RIGHT_PASS_ON), 3, 0);
    REFUSED(read_at(capture, 3, 0), DOCK_RIGHT_LACKING);
    REFUSED(write_at(capture, 3, 0), DOCK_RIGHT_LACKING);
    REFUSED(pass(capture, 3, viewer, 0, 1, DOCK_RIGHT_READ), DOCK_RIGHT_LACKING);
    REFUSED(pass(capture, 3, viewer, 0, 1, DOCK_RIGHT_READ + DOCK_RIGHT_WRITE), DOCK_RIGHT_LACKING);
    ACCEPTED(pass(capture, 3, viewer, 0, 1, DOCK_RIGHT_PASS_ON), 4, 1);
    EQUAL(dock_check(tables, DOCK_TABLES, 0, 0, 3, 2, DOCK_RIGHT_READ), DOCK_RIGHT_LACKING);
    EQUAL(dock_check(tables, DOCK_TABLES, 0, 0, 3, 2, DOCK_RIGHT_PASS_ON), DOCK_FIELD); /* none that it answers for */
    end();
}

/* 1 to 3: the request itself. */
static void refused_requests(void)
{
    const struct who no_pad = {DOCK_PADS, 0}, no_program = {0, DOCK_PROGRAMS},
                     last = {DOCK_PADS - 1, DOCK_PROGRAMS - 1};
    struct dock_request r;

    begin("refusals 1 to 3");
    start();
    ACCEPTED(take(last, 1, ALL), 1, 0);
    REFUSED(take(no_pad, 1, ALL), DOCK_NO_PROGRAM);
    REFUSED(take(no_program, 1, ALL), DOCK_NO_PROGRAM);
    r = take(capture, 1, ALL);
    r.op = DOCK_TAKE - 1;
    REFUSED(r, DOCK_NO_OPERATION);
    r.op = DOCK_WRITE + 1;
    REFUSED(r, DOCK_NO_OPERATION);
    REFUSED(take(capture, 0, ALL), DOCK_FIELD);
    REFUSED(take(capture, DOCK_SHEETS + 1, ALL), DOCK_FIELD);
    REFUSED(take(capture, 1, 0), DOCK_FIELD);
    REFUSED(take(capture, 1, ALL + 1), DOCK_FIELD);
    r = take(capture, 1, ALL);
    r.ticket = 1;
    REFUSED(r, DOCK_FIELD);
    r = take(capture, 1, ALL);
    r.topad = 1;
    REFUSED(r, DOCK_FIELD);
    r = take(capture, 1, ALL);
    r.toprogram = 1;
    REFUSED(r, DOCK_FIELD);
    r = take(capture, 1, ALL);
    r.first = 1;
    REFUSED(r, DOCK_FIELD);
    REFUSED(pass(last, 1, no_pad, 0, 1, ALL), DOCK_FIELD);
    REFUSED(pass(last, 1, no_program, 0, 1, ALL), DOCK_FIELD);
    REFUSED(read_at(last, 1, DOCK_SHEETS), DOCK_FIELD);
    REFUSED(read_at(last, 0, 0), DOCK_FIELD);
    EQUAL(dock_check(tables, DOCK_TABLES, 3, 7, 1, DOCK_SHEETS, DOCK_RIGHT_READ), DOCK_FIELD);
    EQUAL(dock_check(tables, DOCK_TABLES, 3, 7, 1, 0, DOCK_RIGHT_READ + DOCK_RIGHT_WRITE), DOCK_FIELD);
    end();
}

/* 4 to 8: the ticket. */
static void refused_tickets(void)
{
    begin("refusals 4 to 8");
    start();
    ACCEPTED(take(capture, 4, ALL), 1, 0);
    REFUSED(read_at(capture, 2, 0), DOCK_NO_TICKET);
    REFUSED(read_at(viewer, 1, 0), DOCK_NO_TICKET); /* another's number */
    ACCEPTED(pass(capture, 1, viewer, 0, 4, DOCK_RIGHT_READ + DOCK_RIGHT_PASS_ON), 2, 1);
    ACCEPTED(pass(capture, 1, nurse, 0, 2, ALL), 3, 1);
    REFUSED(read_at(capture, 2, 0), DOCK_WRONG_KIND); /* a recall */
    REFUSED(write_at(capture, 3, 0), DOCK_WRONG_KIND);
    REFUSED(pass(capture, 2, nurse, 0, 1, DOCK_RIGHT_READ), DOCK_WRONG_KIND);
    REFUSED(recall(capture, 1), DOCK_WRONG_KIND);    /* a grant */
    REFUSED(give_back(capture, 2), DOCK_WRONG_KIND); /* a recall, a child, a received grant */
    REFUSED(give_back(viewer, 1), DOCK_WRONG_KIND);
    REFUSED(give_back(nurse, 1), DOCK_WRONG_KIND);
    READS(read_at(capture, 1, 3), 0);
    REFUSED(read_at(capture, 1, 4), DOCK_BEYOND);
    REFUSED(write_at(nurse, 1, 2), DOCK_BEYOND);
    REFUSED(pass(capture, 1, next, 2, 3, ALL), DOCK_BEYOND);
    ACCEPTED(pass(capture, 1, next, 2, 2, ALL), 4, 1);
    EQUAL(dock_check(tables, DOCK_TABLES, 1, 0, 1, 1, DOCK_RIGHT_READ), DOCK_ACCEPTED);
    EQUAL(dock_check(tables, DOCK_TABLES, 1, 0, 1, 2, DOCK_RIGHT_READ), DOCK_BEYOND);
    REFUSED(write_at(viewer, 1, 0), DOCK_RIGHT_LACKING);
    REFUSED(pass(viewer, 1, capture, 0, 1, DOCK_RIGHT_WRITE), DOCK_RIGHT_LACKING);
    REFUSED(pass(capture, 1, capture, 0, 1, DOCK_RIGHT_READ), DOCK_TO_ONESELF);
    end();
}

/* 9 to 12: places, numbers, sheets and entries run out. */
static void refused_for_want(void)
{
    unsigned i;

    begin("refusals 9 to 12");
    start();
    for (i = 1; i <= DOCK_PLACES; i++)
        ACCEPTED(take(capture, 1, ALL), i, 0);
    REFUSED(take(capture, 1, ALL), DOCK_NO_PLACE);
    REFUSED(pass(capture, 1, nurse, 0, 1, ALL), DOCK_NO_PLACE); /* the asker has none */
    ACCEPTED(take(nurse, 1, ALL), 1, 0);
    REFUSED(pass(nurse, 1, capture, 0, 1, ALL), DOCK_NO_PLACE); /* the recipient has none */
    ACCEPTED(give_back(capture, 3), 0, 0);
    ACCEPTED(take(capture, 1, ALL), DOCK_PLACES + 1, 0);

    start();
    put(last_at(capture), 65534);
    EQUAL(dock_in_order(tables, DOCK_TABLES), DOCK_ACCEPTED);
    ACCEPTED(take(capture, 1, ALL), 65535, 0);
    REFUSED(take(capture, 1, ALL), DOCK_NO_NUMBER);
    REFUSED(pass(capture, 65535, nurse, 0, 1, ALL), DOCK_NO_NUMBER); /* the asker's are spent */
    ACCEPTED(take(nurse, 1, ALL), 1, 0);
    REFUSED(pass(nurse, 1, capture, 0, 1, ALL), DOCK_NO_NUMBER); /* the recipient's are spent */
    put(last_at(viewer), 65535);
    EQUAL(dock_in_order(tables, DOCK_TABLES), DOCK_ACCEPTED);
    REFUSED(take(viewer, 1, ALL), DOCK_NO_NUMBER);

    start();
    ACCEPTED(take(capture, DOCK_SHEETS - 1, ALL), 1, 0);
    REFUSED(take(nurse, 2, ALL), DOCK_NO_RUN);
    ACCEPTED(take(nurse, 1, ALL), 1, 0);
    REFUSED(take(nurse, 1, ALL), DOCK_NO_RUN);

    start();
    ACCEPTED(take(capture, 4, ALL), 1, 0);
    ACCEPTED(pass(capture, 1, nurse, 0, 2, ALL), 2, 1);
    ACCEPTED(pass(capture, 1, nurse, 2, 2, ALL), 3, 2);
    EQUAL(dock_check(tables, DOCK_TABLES, 1, 0, 1, 0, DOCK_RIGHT_READ), DOCK_ACCEPTED);
    ACCEPTED(recall(capture, 2), 0, 0);
    ACCEPTED(recall(capture, 3), 0, 0);
    EQUAL(dock_check(tables, DOCK_TABLES, 1, 0, 1, 0, DOCK_RIGHT_READ), DOCK_NO_ENTRY);
    EQUAL(dock_check(tables, DOCK_TABLES, DOCK_PADS, 0, 1, 0, DOCK_RIGHT_READ), DOCK_NO_ENTRY);
    EQUAL(live_tickets(), 3); /* the nurse's pad has not heard of it */
    REFUSED(read_at(nurse, 1, 0), DOCK_NO_ENTRY);
    EQUAL(live_tickets(), 2);
    REFUSED(read_at(nurse, 1, 0), DOCK_NO_TICKET);
    REFUSED(pass(nurse, 2, next, 0, 1, ALL), DOCK_NO_ENTRY);
    EQUAL(live_tickets(), 1);
    REFUSED(pass(nurse, 2, next, 0, 1, ALL), DOCK_NO_TICKET);
    end();
}

/*
 * Reports into an output of so many bytes, with a scratch of so many that is full of 255s: what is left is compared. After every
 * result the scratch is zeros.
 */
static void reports(int line, size_t tables_length, size_t scratch_length, size_t room, unsigned result, const char *expected)
{
    uint8_t *image = block(tables_length, 0), *scratch = block(scratch_length, 255), *output = block(room, 7);
    size_t of_tables = tables_length < DOCK_TABLES ? tables_length : DOCK_TABLES, length = 1;

    memcpy(image, tables, of_tables);
    equal(line, dock_report(image, tables_length, scratch, scratch_length, output, room, &length), result, "dock_report");
    equal(line, length, strlen(expected), "the length of the report");
    holds(line, memcmp(output, expected, length) == 0, "the report");
    holds(line, all(output + length, room - length, 7), "the output behind it");
    holds(line, all(scratch, scratch_length, 0), "the scratch after a report");
    holds(line, memcmp(image, tables, of_tables) == 0, "the tables after a report");
    free(image);
    free(scratch);
    free(output);
}

/* Saves into an output of so many bytes: what is left is compared. */
static void saves(int line, size_t tables_length, size_t room, unsigned result, const char *expected, size_t expected_length)
{
    uint8_t *image = block(tables_length, 0), *output = block(room, 7);
    size_t of_tables = tables_length < DOCK_TABLES ? tables_length : DOCK_TABLES, length = 1;

    memcpy(image, tables, of_tables);
    equal(line, dock_save(image, tables_length, output, room, &length), result, "dock_save");
    equal(line, length, expected_length, "the length of the text");
    holds(line, memcmp(output, expected, length) == 0, "the text");
    holds(line, all(output + length, room - length, 7), "the output behind it");
    holds(line, memcmp(image, tables, of_tables) == 0, "the tables after saving");
    free(image);
    free(output);
}

/* Each routine refuses these tables, and changes nothing. */
static void not_in_order(int line)
{
    uint8_t *before = copy(tables, DOCK_TABLES);
    unsigned served;

    equal(line, dock_in_order(tables, DOCK_TABLES), DOCK_NOT_IN_ORDER, "dock_in_order");
    equal(line, dock_check(tables, DOCK_TABLES, 0, 0, 1, 0, DOCK_RIGHT_READ), DOCK_NOT_IN_ORDER, "dock_check");
    reports(line, DOCK_TABLES, DOCK_REPORT_SCRATCH, DOCK_REPORT_ROOM, DOCK_NOT_IN_ORDER, "");
    saves(line, DOCK_TABLES, DOCK_SAVED_ROOM, DOCK_NOT_IN_ORDER, "", 0);
    serve_one(line, take(nurse, 1, ALL), 7, DOCK_NOT_IN_ORDER, 0, 0);
    served = dock_serve(tables, DOCK_TABLES, store, DOCK_STORE, sheet, DOCK_SHEET, request, DOCK_REQUEST, answer,
                        DOCK_ANSWER);
    equal(line, served, DOCK_NOT_IN_ORDER, "dock_serve");
    holds(line, all(sheet, DOCK_SHEET, 7), "the sheets untouched");
    holds(line, all((uint8_t *)answer, DOCK_ANSWER * sizeof *answer, 0xee), "the answers untouched");
    holds(line, memcmp(tables, before, DOCK_TABLES) == 0, "the tables untouched");
    free(before);
}

/* 14, with the field put to a wrong number; then in order again. */
static void spoilt(int line, size_t at, unsigned wrong)
{
    unsigned right = get(at);

    put(at, wrong);
    not_in_order(line);
    put(at, right);
    equal(line, dock_in_order(tables, DOCK_TABLES), DOCK_ACCEPTED, "dock_in_order, put right");
}

#define SPOILT(at, wrong) spoilt(__LINE__, (at), (wrong))

/* 13 has its own group, lengths. */
static void refused_tables(void)
{
    begin("refusal 14");
    start();
    ACCEPTED(take(capture, 1, ALL), 1, 0);
    SPOILT(ticket_at(__LINE__, capture, 1) + DOCK_TICKET_KIND_AT, DOCK_KIND_RECALL + 1);
    SPOILT(place_at(next, DOCK_PLACES - 1) + DOCK_TICKET_KIND_AT, DOCK_KIND_RECALL + 1);
    SPOILT(entry_place_at(DOCK_ENTRIES - 1) + DOCK_ENTRY_LIVE_AT, 2);
    SPOILT(ticket_at(__LINE__, capture, 1) + DOCK_TICKET_NUMBER_AT, 2); /* above last */
    SPOILT(last_at(capture), 0);
    ACCEPTED(pass(capture, 1, nurse, 0, 1, ALL), 2, 1);
    SPOILT(ticket_at(__LINE__, capture, 2) + DOCK_TICKET_KIND_AT, DOCK_KIND_FREE); /* a loan without its recall */
    end();
}

/* Every result has words of its own; no other number has any. */
static void names(void)
{
    static const char none[] = "no such result";
    const char *found[DOCK_BAD_TEXT + 1];
    unsigned results = 0, i, number;

    begin("names");
    for (number = 0; number <= UINT16_MAX; number++) {
        const char *name = dock_result_name((uint16_t)number);
        if (strcmp(name, none) == 0)
            continue;
        HOLDS(number <= DOCK_BAD_TEXT);
        HOLDS(name[0] != 0);
        for (i = 0; i < results; i++)
            HOLDS(strcmp(name, found[i]) != 0);
        found[results++] = name;
    }
    EQUAL(results, DOCK_BAD_TEXT + 1); /* 0 to 18 */
    EQUAL(strcmp(dock_result_name(DOCK_ACCEPTED), "accepted"), 0);
    EQUAL(strcmp(dock_result_name(DOCK_NO_ENTRY), "the dock has no entry for the ticket"), 0);
    end();
}

/* The tickets and entries of the image. */

static void is_grant(int line, struct who who, unsigned number, unsigned kind, unsigned first, unsigned count,
                     unsigned rights, struct name dock)
{
    size_t at = ticket_at(line, who, number);

    equal(line, get(at + DOCK_TICKET_KIND_AT), kind, "a grant's kind");
    equal(line, get(at + DOCK_TICKET_FIRST_AT), first, "a grant's first");
    equal(line, get(at + DOCK_TICKET_COUNT_AT), count, "a grant's count");
    equal(line, get(at + DOCK_TICKET_RIGHTS_AT), rights, "a grant's rights");
    holds(line, is_name(at + DOCK_TICKET_DOCK_AT, dock), "a grant's dock name");
}

static void is_recall(int line, struct who who, unsigned number, unsigned own, struct name target)
{
    size_t at = ticket_at(line, who, number);

    equal(line, get(at + DOCK_TICKET_KIND_AT), DOCK_KIND_RECALL, "a recall's kind");
    equal(line, get(at + DOCK_TICKET_OWN_AT), own, "a recall's own");
    holds(line, is_name(at + DOCK_TICKET_OTHER_AT, target), "a recall's target");
}

static void is_entry(int line, struct name name, struct name parent, unsigned first, unsigned count, unsigned rights)
{
    size_t at = entry_at(line, name);

    holds(line, is_name(at + DOCK_ENTRY_PARENT_AT, parent), "an entry's parent");
    equal(line, get(at + DOCK_ENTRY_FIRST_AT), first, "an entry's first");
    equal(line, get(at + DOCK_ENTRY_COUNT_AT), count, "an entry's count");
    equal(line, get(at + DOCK_ENTRY_RIGHTS_AT), rights, "an entry's rights");
}

/* What requests leave in the image. The numbers differ, so that no two fields can be confused. */
static void image_read(void)
{
    const struct who a = {2, 3}, b = {2, 5}, c = {1, 6}, d = {3, 7}, e = {1, 2};
    const struct name the_store = {0, 0, 0}, a1 = {2, 3, 1}, a3 = {2, 3, 3}, b1 = {2, 5, 1}, c1 = {1, 6, 1},
                      c2 = {1, 6, 2}, d1 = {3, 7, 1}, d2 = {3, 7, 2}, e1 = {1, 2, 1};

    begin("image, read");
    EQUAL(DOCK_STORE, DOCK_SHEETS * DOCK_SHEET);
    EQUAL(DOCK_LAST_AT, DOCK_PLACES * DOCK_TICKET_SIZE);
    EQUAL(DOCK_PROGRAM_SIZE, DOCK_LAST_AT + 2);
    EQUAL(DOCK_ENTRIES_AT, DOCK_PADS * DOCK_PROGRAMS * DOCK_PROGRAM_SIZE);
    EQUAL(DOCK_TABLES, DOCK_ENTRIES_AT + DOCK_ENTRIES * DOCK_ENTRY_SIZE);
    start();
    ACCEPTED(take(c, 3, 1), 1, 0); /* sheets 0 to 2 */
    ACCEPTED(take(a, 5, 7), 1, 0); /* sheets 3 to 7 */
    ACCEPTED(take(a, 1, 7), 2, 0);
    ACCEPTED(give_back(a, 2), 0, 0);
    ACCEPTED(take(a, 6, 7), 3, 0);          /* sheets 8 to 13 */
    ACCEPTED(pass(a, 3, b, 1, 4, 5), 4, 1); /* to the same pad: a child, sheets 9 to 12 */
    ACCEPTED(pass(a, 3, c, 2, 3, 7), 5, 2); /* to another pad: sheets 10 to 12 */
    ACCEPTED(pass(c, 2, d, 1, 2, 3), 3, 1); /* and on, to a third: sheets 11 and 12 */
    ACCEPTED(pass(c, 2, e, 0, 1, 6), 4, 1); /* a child of a received grant: sheet 10 */
    ACCEPTED(pass(b, 1, d, 3, 1, 1), 2, 2); /* a child's loan to another pad: sheet 12 */
    EQUAL(live_tickets(), 13);
    EQUAL(live_entries(), 6);
    EQUAL(get(last_at(a)), 5);
    EQUAL(get(last_at(b)), 2);
    EQUAL(get(last_at(c)), 4);
    EQUAL(get(last_at(d)), 2);
    EQUAL(get(last_at(e)), 1);
    EQUAL(sum_of_lasts(), 5 + 2 + 4 + 2 + 1);
    is_grant(__LINE__, c, 1, DOCK_KIND_TAKEN, 0, 3, 1, c1);
    is_grant(__LINE__, a, 1, DOCK_KIND_TAKEN, 3, 5, 7, a1);
    is_grant(__LINE__, a, 3, DOCK_KIND_TAKEN, 8, 6, 7, a3);
    is_grant(__LINE__, b, 1, DOCK_KIND_CHILD, 9, 4, 5, a3);
    HOLDS(is_name(ticket_at(__LINE__, b, 1) + DOCK_TICKET_OTHER_AT, a3)); /* its parent */
    is_grant(__LINE__, c, 2, DOCK_KIND_RECEIVED, 10, 3, 7, c2);
    is_grant(__LINE__, d, 1, DOCK_KIND_RECEIVED, 11, 2, 3, d1);
    is_grant(__LINE__, e, 1, DOCK_KIND_CHILD, 10, 1, 6, c2);
    HOLDS(is_name(ticket_at(__LINE__, e, 1) + DOCK_TICKET_OTHER_AT, c2));
    is_grant(__LINE__, d, 2, DOCK_KIND_RECEIVED, 12, 1, 1, d2);
    is_recall(__LINE__, a, 4, 3, b1);
    is_recall(__LINE__, a, 5, 3, c2);
    is_recall(__LINE__, c, 3, 2, d1);
    is_recall(__LINE__, c, 4, 2, e1);
    is_recall(__LINE__, b, 2, 1, d2);
    is_entry(__LINE__, c1, the_store, 0, 3, 1);
    is_entry(__LINE__, a1, the_store, 3, 5, 7);
    is_entry(__LINE__, a3, the_store, 8, 6, 7);
    is_entry(__LINE__, c2, a3, 10, 3, 7);
    is_entry(__LINE__, d1, c2, 11, 2, 3);
    is_entry(__LINE__, d2, a3, 12, 1, 1);
    end();
}

/* What a host writes into the image is what the library reads there: a taken grant and its entry. */
static void image_written(void)
{
    const struct name name = {2, 3, 9}, the_store = {0, 0, 0};
    const size_t ticket = place_at(next, 5), entry = entry_place_at(77);
    size_t i;

    begin("image, written");
    start();
    put(last_at(next), 9);
    put(ticket + DOCK_TICKET_KIND_AT, DOCK_KIND_TAKEN);
    put(ticket + DOCK_TICKET_NUMBER_AT, 9);
    put(ticket + DOCK_TICKET_FIRST_AT, 200);
    put(ticket + DOCK_TICKET_COUNT_AT, 2);
    put(ticket + DOCK_TICKET_RIGHTS_AT, DOCK_RIGHT_READ + DOCK_RIGHT_WRITE);
    put_name(ticket + DOCK_TICKET_DOCK_AT, name);
    put(entry + DOCK_ENTRY_LIVE_AT, 1);
    put_name(entry + DOCK_ENTRY_NAME_AT, name);
    put_name(entry + DOCK_ENTRY_PARENT_AT, the_store);
    put(entry + DOCK_ENTRY_FIRST_AT, 200);
    put(entry + DOCK_ENTRY_COUNT_AT, 2);
    put(entry + DOCK_ENTRY_RIGHTS_AT, DOCK_RIGHT_READ + DOCK_RIGHT_WRITE);
    EQUAL(dock_in_order(tables, DOCK_TABLES), DOCK_ACCEPTED);
    EQUAL(dock_check(tables, DOCK_TABLES, 2, 3, 9, 199, DOCK_RIGHT_READ), DOCK_BEYOND);
    EQUAL(dock_check(tables, DOCK_TABLES, 2, 3, 9, 200, DOCK_RIGHT_READ), DOCK_ACCEPTED);
    EQUAL(dock_check(tables, DOCK_TABLES, 2, 3, 9, 201, DOCK_RIGHT_WRITE), DOCK_ACCEPTED);
    EQUAL(dock_check(tables, DOCK_TABLES, 2, 3, 9, 202, DOCK_RIGHT_READ), DOCK_BEYOND);
    WRITTEN(write_at(next, 9, 1), 67);
    HOLDS(all(sheet_of_store(201), DOCK_SHEET, 67));

    /* Each field that counts, put wrong by itself, is seen. */
    SPOILT(last_at(next), 8);
    SPOILT(ticket + DOCK_TICKET_KIND_AT, DOCK_KIND_FREE);
    SPOILT(ticket + DOCK_TICKET_KIND_AT, DOCK_KIND_RECEIVED);
    SPOILT(ticket + DOCK_TICKET_KIND_AT, DOCK_KIND_CHILD);
    SPOILT(ticket + DOCK_TICKET_KIND_AT, DOCK_KIND_RECALL);
    SPOILT(ticket + DOCK_TICKET_NUMBER_AT, 8);
    SPOILT(ticket + DOCK_TICKET_FIRST_AT, 199);
    SPOILT(ticket + DOCK_TICKET_COUNT_AT, 3);
    SPOILT(ticket + DOCK_TICKET_RIGHTS_AT, DOCK_RIGHT_READ);
    SPOILT(ticket + DOCK_TICKET_DOCK_AT + DOCK_NAME_PAD_AT, 1);
    SPOILT(ticket + DOCK_TICKET_DOCK_AT + DOCK_NAME_PROGRAM_AT, 2);
    SPOILT(ticket + DOCK_TICKET_DOCK_AT + DOCK_NAME_NUMBER_AT, 8);
    SPOILT(entry + DOCK_ENTRY_LIVE_AT, 0);
    SPOILT(entry + DOCK_ENTRY_NAME_AT + DOCK_NAME_PAD_AT, 1);
    SPOILT(entry + DOCK_ENTRY_NAME_AT + DOCK_NAME_PROGRAM_AT, 2);
    SPOILT(entry + DOCK_ENTRY_NAME_AT + DOCK_NAME_NUMBER_AT, 8);
    SPOILT(entry + DOCK_ENTRY_PARENT_AT + DOCK_NAME_PAD_AT, 1); /* only zeros are the store */
    SPOILT(entry + DOCK_ENTRY_PARENT_AT + DOCK_NAME_PROGRAM_AT, 1);
    SPOILT(entry + DOCK_ENTRY_PARENT_AT + DOCK_NAME_NUMBER_AT, 1);
    SPOILT(entry + DOCK_ENTRY_FIRST_AT, 199);
    SPOILT(entry + DOCK_ENTRY_COUNT_AT, 3);
    SPOILT(entry + DOCK_ENTRY_RIGHTS_AT, DOCK_RIGHT_READ);

    /* What says nothing may be anything. */
    put(ticket + DOCK_TICKET_OWN_AT, 65535);
    memset(tables + ticket + DOCK_TICKET_OTHER_AT, 0xff, DOCK_TICKET_FIRST_AT - DOCK_TICKET_OTHER_AT);
    for (i = DOCK_TICKET_KIND_AT + 2; i < DOCK_TICKET_SIZE; i++)
        tables[place_at(next, 4) + i] = 0xff; /* a free place */
    for (i = DOCK_ENTRY_LIVE_AT + 2; i < DOCK_ENTRY_SIZE; i++)
        tables[entry_place_at(78) + i] = 0xff; /* no entry */
    EQUAL(dock_in_order(tables, DOCK_TABLES), DOCK_ACCEPTED);
    READS(read_at(next, 9, 1), 67);
    EQUAL(live_tickets(), 1);
    EQUAL(live_entries(), 1);
    is_grant(__LINE__, next, 9, DOCK_KIND_TAKEN, 200, 2, DOCK_RIGHT_READ + DOCK_RIGHT_WRITE, name);
    is_entry(__LINE__, name, the_store, 200, 2, DOCK_RIGHT_READ + DOCK_RIGHT_WRITE);
    end();
}

/* The ward's story: each request's nine numbers and the byte that its sheet buffer is full of. */
enum { WARD = 21 };
static const uint16_t ward[WARD][DOCK_REQUEST + 1] = {
    {0, 0, 1, 0, 0, 0, 0, 4, 7, 0},  {0, 0, 6, 1, 0, 0, 0, 0, 0, 65}, {0, 0, 2, 1, 0, 1, 0, 2, 5, 0},
    {0, 1, 5, 1, 0, 0, 0, 0, 0, 0},  {0, 1, 6, 1, 0, 0, 0, 0, 0, 66}, {0, 1, 2, 1, 1, 0, 0, 1, 1, 0},
    {1, 0, 5, 1, 0, 0, 0, 0, 0, 0},  {1, 0, 6, 1, 0, 0, 0, 0, 0, 66}, {1, 0, 5, 1, 0, 0, 1, 0, 0, 0},
    {0, 0, 2, 1, 2, 0, 2, 1, 1, 0},  {2, 0, 5, 1, 0, 0, 0, 0, 0, 0},  {0, 0, 3, 3, 0, 0, 0, 0, 0, 0},
    {2, 0, 5, 1, 0, 0, 0, 0, 0, 0},  {2, 0, 5, 1, 0, 0, 0, 0, 0, 0},  {0, 0, 3, 2, 0, 0, 0, 0, 0, 0},
    {0, 1, 5, 1, 0, 0, 0, 0, 0, 0},  {1, 0, 5, 1, 0, 0, 0, 0, 0, 0},  {1, 0, 5, 1, 0, 0, 0, 0, 0, 0},
    {0, 0, 4, 1, 0, 0, 0, 0, 0, 0},  {2, 3, 1, 0, 0, 0, 0, 4, 7, 0},  {2, 3, 5, 1, 0, 0, 0, 0, 0, 0},
};

/* dock_serve does what as many dock_steps do, and so do dock_ask and dock_ask_all. */
static void serving_many(void)
{
    uint8_t *many_tables = block(DOCK_TABLES, 1), *many_store = block(DOCK_STORE, 1);
    uint8_t *sheets = block(WARD * DOCK_SHEET, 0), *many_sheets;
    uint16_t *requests = block(WARD * DOCK_REQUEST * sizeof *requests, 0);
    uint16_t *answers = block(WARD * DOCK_ANSWER * sizeof *answers, 1);
    uint16_t *many_answers = block(WARD * DOCK_ANSWER * sizeof *answers, 2);
    struct dock *dock = block(sizeof *dock, 3), *all_at_once = block(sizeof *dock, 3);
    struct dock_request *asked_all = block(WARD * sizeof *asked_all, 0);
    struct dock_answer *told_all = block(WARD * sizeof *told_all, 4);
    uint8_t(*sheets_all)[DOCK_SHEET] = block(WARD * sizeof *sheets_all, 0);
    struct dock_answer told;
    unsigned served;
    size_t i;

    begin("serving many");
    for (i = 0; i < WARD; i++) {
        memcpy(requests + DOCK_REQUEST * i, ward[i], DOCK_REQUEST * sizeof *requests);
        memset(sheets + DOCK_SHEET * i, ward[i][DOCK_REQUEST], DOCK_SHEET);
        memset(sheets_all[i], ward[i][DOCK_REQUEST], DOCK_SHEET);
        asked_all[i] = request_of(ward[i]);
    }
    many_sheets = copy(sheets, WARD * DOCK_SHEET);
    start();
    EQUAL(dock_empty(many_tables, DOCK_TABLES, many_store, DOCK_STORE), DOCK_ACCEPTED);
    served = dock_serve(many_tables, DOCK_TABLES, many_store, DOCK_STORE, many_sheets, WARD * DOCK_SHEET, requests,
                        WARD * DOCK_REQUEST, many_answers, WARD * DOCK_ANSWER);
    EQUAL(served, DOCK_ACCEPTED);
    dock_start(all_at_once);
    EQUAL(dock_ask_all(all_at_once, asked_all, sheets_all, told_all, WARD), DOCK_ACCEPTED);
    dock_start(dock);
    for (i = 0; i < WARD; i++) {
        const uint16_t *r = ward[i];
        struct dock_request asked = request_of(r);
        uint8_t *asked_sheet = copy(sheets + DOCK_SHEET * i, DOCK_SHEET);
        uint16_t *one = answers + DOCK_ANSWER * i;

        told = dock_ask(dock, asked, asked_sheet);
        /* One sheet and one answer at a time, each in a block of its own length. */
        memcpy(sheet, sheets + DOCK_SHEET * i, DOCK_SHEET);
        memcpy(request, r, DOCK_REQUEST * sizeof *request);
        dock_step(tables, DOCK_TABLES, store, DOCK_STORE, sheet, DOCK_SHEET, request, DOCK_REQUEST, answer,
                  DOCK_ANSWER);
        memcpy(sheets + DOCK_SHEET * i, sheet, DOCK_SHEET);
        memcpy(one, answer, DOCK_ANSWER * sizeof *answer);
        HOLDS(told.result == one[0] && told.ticket == one[1] && told.recipient == one[2]);
        HOLDS(memcmp(&told, &told_all[i], sizeof told) == 0);
        HOLDS(memcmp(asked_sheet, sheet, DOCK_SHEET) == 0);
        HOLDS(memcmp(sheets_all[i], sheet, DOCK_SHEET) == 0);
        free(asked_sheet);
    }
    HOLDS(memcmp(tables, many_tables, DOCK_TABLES) == 0);
    HOLDS(memcmp(store, many_store, DOCK_STORE) == 0);
    HOLDS(memcmp(sheets, many_sheets, WARD * DOCK_SHEET) == 0);
    HOLDS(memcmp(answers, many_answers, WARD * DOCK_ANSWER * sizeof *answers) == 0);
    HOLDS(memcmp(tables, dock->tables, DOCK_TABLES) == 0);
    HOLDS(memcmp(store, dock->store, DOCK_STORE) == 0);
    HOLDS(memcmp(tables, all_at_once->tables, DOCK_TABLES) == 0);
    HOLDS(memcmp(store, all_at_once->store, DOCK_STORE) == 0);
    EQUAL(dock_ask_all(all_at_once, asked_all, sheets_all, told_all, 0), DOCK_ACCEPTED);
    served = dock_serve(many_tables, DOCK_TABLES, many_store, DOCK_STORE, many_sheets, 0, requests, 0, many_answers, 0);
    EQUAL(served, DOCK_ACCEPTED); /* no requests */
    HOLDS(memcmp(tables, many_tables, DOCK_TABLES) == 0);
    HOLDS(memcmp(store, many_store, DOCK_STORE) == 0);

    /* dock_ask on tables that are not in order: 14 0 0. */
    dock->tables[DOCK_TICKET_KIND_AT] = DOCK_KIND_RECALL + 1;
    told = dock_ask(dock, take(capture, 1, ALL), sheet);
    HOLDS(told.result == DOCK_NOT_IN_ORDER && told.ticket == 0 && told.recipient == 0);
    EQUAL(dock_ask_all(dock, asked_all, sheets_all, told_all, WARD), DOCK_NOT_IN_ORDER);
    end();
    free(many_tables);
    free(many_store);
    free(sheets);
    free(many_sheets);
    free(requests);
    free(answers);
    free(many_answers);
    free(dock);
    free(all_at_once);
    free(asked_all);
    free(told_all);
    free(sheets_all);
}

/* The version, and the trace. */

#define NAMES "pad program op ticket topad toprogram first count rights fill\n"
#define ANSWERED "line result ticket recipient byte\n"

/* Traces an input into an output of so many bytes, with buffers of these lengths; what is left is compared. */
static void traces(int line, const char *input, size_t input_length, size_t room, size_t tables_length, size_t store_length,
                   unsigned result, const char *expected)
{
    uint8_t *in = copy(input, input_length), *output = block(room, 7);
    uint8_t *tables_before = copy(tables, DOCK_TABLES), *store_before = copy(store, DOCK_STORE);
    size_t length = 1;
    equal(line, dock_trace(tables, tables_length, store, store_length, in, input_length, output, room, &length), result,
          "dock_trace");
    equal(line, length, strlen(expected), "the length of the trace");
    holds(line, memcmp(output, expected, length) == 0, "the trace");
    holds(line, all(output + length, room - length, 7), "the output behind it");
    if (result) {
        holds(line, memcmp(tables, tables_before, DOCK_TABLES) == 0, "the tables after a refusal");
        holds(line, memcmp(store, store_before, DOCK_STORE) == 0, "the store after a refusal");
    }
    free(in);
    free(output);
    free(tables_before);
    free(store_before);
}

static void tracing(void)
{
    static char longest[DOCK_TRACE_INPUT + 1];
    const char *asked = NAMES "0 0 1 0 0 0 0 1 7 0\n0 0 6 1 0 0 0 0 0 65\n0 0 5 1 0 0 0 0 0 0\n";
    const char *taken = NAMES "0 0 1 0 0 0 0 1 7 0\n";
    const char *told = ANSWERED "1 0 1 0 0\n2 0 0 0 0\n3 0 0 0 65\n";

    begin("version and trace");
    equal(__LINE__, dock_version(), DOCK_VERSION, "dock_version");
    start();
    traces(__LINE__, asked, strlen(asked), strlen(told), DOCK_TABLES - 1, DOCK_STORE, DOCK_LENGTH, "");
    traces(__LINE__, asked, strlen(asked), strlen(told), DOCK_TABLES, DOCK_STORE - 1, DOCK_LENGTH, "");
    traces(__LINE__, asked, strlen(asked), strlen(told) - 1, DOCK_TABLES, DOCK_STORE, DOCK_TOO_SHORT, "");
    traces(__LINE__, asked, strlen(asked), strlen(told), DOCK_TABLES, DOCK_STORE, DOCK_ACCEPTED, told);
    /* The dock is as the last call left it. */
    equal(__LINE__, store[0], 65, "what was written");
    traces(__LINE__, taken, strlen(taken), DOCK_TRACE_ROOM, DOCK_TABLES, DOCK_STORE, DOCK_ACCEPTED, ANSWERED "1 0 2 0 0\n");
    /* The longest input, and one that is longer. */
    memset(longest, '0', sizeof longest);
    memcpy(longest, NAMES, strlen(NAMES));
    traces(__LINE__, longest, DOCK_TRACE_INPUT, 100, DOCK_TABLES, DOCK_STORE, DOCK_ACCEPTED, ANSWERED "1 15 0 0 0\n");
    traces(__LINE__, longest, DOCK_TRACE_INPUT + 1, 100, DOCK_TABLES, DOCK_STORE, DOCK_ACCEPTED, ANSWERED "0 15 0 0 0\n");
    tables[0] = 5;
    traces(__LINE__, asked, strlen(asked), DOCK_TRACE_ROOM, DOCK_TABLES, DOCK_STORE, DOCK_NOT_IN_ORDER, "");
    end();
}

/* The report. */

#define COLUMNS "depth pad program ticket first count rights\n"

/*
 * Scratches of other lengths, 256 bytes among them as it had up to version 4, have this result, with an output of no bytes too; other
 * tables come first.
 */
static void scratches(unsigned result)
{
    static const size_t lengths[] = {0, 1, DOCK_REPORT_SCRATCH - 1, DOCK_REPORT_SCRATCH + 1, 255, 256, 257};
    size_t i;

    for (i = 0; i < sizeof lengths / sizeof *lengths; i++) {
        reports(__LINE__, DOCK_TABLES, lengths[i], DOCK_REPORT_ROOM, result, "");
        reports(__LINE__, DOCK_TABLES, lengths[i], 0, result, "");
        reports(__LINE__, 0, lengths[i], DOCK_REPORT_ROOM, DOCK_LENGTH, "");
        reports(__LINE__, DOCK_TABLES - 1, lengths[i], DOCK_REPORT_ROOM, DOCK_LENGTH, "");
        reports(__LINE__, DOCK_TABLES + 1, lengths[i], 0, DOCK_LENGTH, "");
    }
}

/* The report of the tables is this text, with room for it or more; with less it is refused. Tables of another length come first. */
static void is_report(int line, const char *text)
{
    const size_t whole = strlen(text);
    const size_t enough[] = {whole, whole + 1, DOCK_REPORT_ROOM - 1, DOCK_REPORT_ROOM, DOCK_REPORT_ROOM + 1};
    const size_t too_short[] = {0, 1, whole / 2, whole - 1};
    size_t i;

    for (i = 0; i < sizeof enough / sizeof *enough; i++)
        reports(line, DOCK_TABLES, DOCK_REPORT_SCRATCH, enough[i], DOCK_ACCEPTED, text);
    for (i = 0; i < sizeof too_short / sizeof *too_short; i++)
        reports(line, DOCK_TABLES, DOCK_REPORT_SCRATCH, too_short[i], DOCK_TOO_SHORT, "");
    reports(line, DOCK_TABLES - 1, DOCK_REPORT_SCRATCH, whole, DOCK_LENGTH, "");
    reports(line, DOCK_TABLES + 1, DOCK_REPORT_SCRATCH, whole, DOCK_LENGTH, "");
}

/* A taken grant of one sheet in every place, with numbers of five digits. */
static void many_grants(void)
{
    static char text[DOCK_REPORT_ROOM + 1];
    char *end = text + sprintf(text, COLUMNS);
    struct who who;
    unsigned place, sheet_number = 0;

    start();
    for (who.pad = 0; who.pad < DOCK_PADS; who.pad++)
        for (who.program = 0; who.program < DOCK_PROGRAMS; who.program++) {
            put(last_at(who), 65535 - DOCK_PLACES);
            for (place = 1; place <= DOCK_PLACES; place++) {
                unsigned number = 65535 - DOCK_PLACES + place;
                ACCEPTED(take(who, 1, ALL), number, 0);
                end += sprintf(end, "0 %u %u %u %u 1 7\n", who.pad, who.program, number, sheet_number++);
            }
        }
    sprintf(end, "%u 0\n", DOCK_SHEETS);
    is_report(__LINE__, text);
}

static void reporting(void)
{
    const size_t places = DOCK_PADS * DOCK_PROGRAMS * DOCK_PLACES;
    const char *lent = COLUMNS "0 0 0 1 0 4 7\n1 0 1 1 0 2 5\n2 1 0 1 1 1 1\n1 2 3 1 2 2 7\n2 0 0 4 3 1 2\n"
                               "0 1 0 2 4 2 2\n6 250\n";
    const char *recalled = COLUMNS "0 0 0 1 0 4 7\n1 0 1 1 0 2 5\n2 1 0 1 1 1 1\n0 1 0 2 4 2 2\n6 250\n";

    begin("report");
    EQUAL(8 * DOCK_REPORT_SCRATCH, places);
    EQUAL(DOCK_REPORT_ROOM, strlen(COLUMNS "255 255\n") + places * strlen("255 3 7 65535 255 256 7\n"));
    start();
    is_report(__LINE__, COLUMNS "0 256\n");
    ACCEPTED(take(capture, 4, ALL), 1, 0);
    ACCEPTED(pass(capture, 1, viewer, 0, 2, DOCK_RIGHT_READ + DOCK_RIGHT_PASS_ON), 2, 1);
    ACCEPTED(pass(capture, 1, next, 2, 2, ALL), 3, 1);
    ACCEPTED(pass(viewer, 1, nurse, 1, 1, DOCK_RIGHT_READ), 2, 1);
    ACCEPTED(pass(next, 1, capture, 1, 1, DOCK_RIGHT_WRITE), 2, 4);
    ACCEPTED(take(nurse, 2, DOCK_RIGHT_WRITE), 2, 0);
    is_report(__LINE__, lent);
    scratches(DOCK_SCRATCH);
    ACCEPTED(recall(capture, 3), 0, 0); /* the grants of next and of capture stay on their pads until they are used */
    is_report(__LINE__, recalled);
    REFUSED(write_at(capture, 4, 0), DOCK_NO_ENTRY);
    is_report(__LINE__, recalled);
    put(ticket_at(__LINE__, capture, 1) + DOCK_TICKET_KIND_AT, DOCK_KIND_RECALL + 1);
    scratches(DOCK_NOT_IN_ORDER);
    start();
    ACCEPTED(take(next, DOCK_SHEETS, DOCK_RIGHT_READ), 1, 0);
    is_report(__LINE__, COLUMNS "0 2 3 1 0 256 1\n256 0\n");
    many_grants();
    end();
}

/* The tables as text. */

#define KINDS "kind pad program number own opad oprogram onumber first count rights\n"

/* The text of these tables: the names, the last number of each program, and these lines. */
static const char *text_of(const char *lines)
{
    static char text[DOCK_SAVED_ROOM + 1];
    char *end = text + sprintf(text, KINDS);
    struct who who;

    for (who.pad = 0; who.pad < DOCK_PADS; who.pad++)
        for (who.program = 0; who.program < DOCK_PROGRAMS; who.program++)
            end += sprintf(end, "0 %u %u %u 0 0 0 0 0 0 0\n", who.pad, who.program, get(last_at(who)));
    strcpy(end, lines);
    return text;
}

/* Loads a text over tables full of 255s. What loads is what saving writes; what is refused leaves the tables of an emptied dock. */
static unsigned loaded(int line, const char *text, size_t length)
{
    uint8_t *image = block(DOCK_TABLES, 255), *input = copy(text, length), *kept = tables;
    unsigned result = dock_load(image, DOCK_TABLES, input, length);

    holds(line, memcmp(input, text, length) == 0, "the text untouched");
    tables = image;
    if (result == DOCK_ACCEPTED)
        saves(line, DOCK_TABLES, length, DOCK_ACCEPTED, text, length);
    else
        holds(line, all(tables, DOCK_TABLES, 0), "the tables after a refused load");
    tables = kept;
    free(image);
    free(input);
    return result;
}

static void loads(int line, const char *text, unsigned result)
{
    equal(line, loaded(line, text, strlen(text)), result, "dock_load");
}

/* The tables have this text, with room for it or more; with less it is refused. Tables of another length come first. */
static void is_saved(int line, const char *text)
{
    const size_t whole = strlen(text);
    const size_t enough[] = {whole, whole + 1, DOCK_SAVED_ROOM - 1, DOCK_SAVED_ROOM, DOCK_SAVED_ROOM + 1};
    const size_t too_short[] = {0, 1, whole / 2, whole - 1};
    const size_t other[] = {0, DOCK_TABLES - 1, DOCK_TABLES + 1};
    size_t i;

    for (i = 0; i < sizeof enough / sizeof *enough; i++)
        saves(line, DOCK_TABLES, enough[i], DOCK_ACCEPTED, text, whole);
    for (i = 0; i < sizeof too_short / sizeof *too_short; i++)
        saves(line, DOCK_TABLES, too_short[i], DOCK_TOO_SHORT, "", 0);
    for (i = 0; i < sizeof other / sizeof *other; i++) {
        uint8_t *image = block(other[i], 255);
        saves(line, other[i], whole, DOCK_LENGTH, "", 0);
        equal(line, dock_load(image, other[i], (const uint8_t *)text, whole), DOCK_LENGTH, "dock_load");
        holds(line, all(image, other[i], 255), "the tables after 13");
        free(image);
    }
    loads(line, text, DOCK_ACCEPTED);
}

/* A copy of the text with these characters in the place of others, which it has once. */
static const char *with(const char *text, const char *old, const char *new)
{
    static char changed[DOCK_SAVED_ROOM + 1];
    const char *at = strstr(text, old);

    if (!at || strstr(at + 1, old))
        fail(__LINE__, "not once in the text");
    sprintf(changed, "%.*s%s%s", (int)(at - text), text, new, at + strlen(old));
    return changed;
}

/* Each refusal by one change, beside changes that load. */
static void changed_texts(const char *text)
{
    loads(__LINE__, with(text, "0 3 7 0 ", "0 3 7 65535 "), DOCK_ACCEPTED);
    loads(__LINE__, with(text, "0 3 7 0 ", "0 3 7 65536 "), DOCK_BAD_TEXT);
    loads(__LINE__, with(text, "0 3 7 0 ", "0 3 7 00 "), DOCK_BAD_TEXT);
    loads(__LINE__, with(text, "0 3 7 0 ", "0 3 7 0  "), DOCK_BAD_TEXT);
    loads(__LINE__, with(text, "0 3 7 0 0", "0 3 7 0"), DOCK_BAD_TEXT);
    loads(__LINE__, with(text, "0 3 7 0 0", "0 3 7 0 1"), DOCK_BAD_TEXT); /* unused and not 0 */
    loads(__LINE__, with(text, "0 3 7 0 0 0 0 0 0 0 0\n", ""), DOCK_BAD_TEXT);
    loads(__LINE__, with(text, "0 3 7 0 0 0 0 0 0 0 0\n", "0 3 7 0 0 0 0 0 0 0 0\n0 3 7 1 0 0 0 0 0 0 0\n"), DOCK_BAD_TEXT);
    loads(__LINE__, with(text, "kind pad", "kind  pad"), DOCK_BAD_TEXT);
    loads(__LINE__, with(text, "\n5 1 0 1 ", "\n6 1 0 1 "), DOCK_BAD_TEXT); /* kind, pad, program, opad, oprogram */
    loads(__LINE__, with(text, "\n5 1 0 1 ", "\n5 4 0 1 "), DOCK_BAD_TEXT);
    loads(__LINE__, with(text, "\n5 1 0 1 ", "\n5 1 8 1 "), DOCK_BAD_TEXT);
    loads(__LINE__, with(text, "\n5 1 0 1 0 0 0 1 ", "\n5 1 0 1 0 4 0 1 "), DOCK_BAD_TEXT);
    loads(__LINE__, with(text, "\n5 1 0 1 0 0 0 1 ", "\n5 1 0 1 0 0 8 1 "), DOCK_BAD_TEXT);
    loads(__LINE__, with(text, "\n5 1 0 1 0 0 0 1 ", "\n5 1 0 1 0 0 7 1 "), DOCK_NOT_IN_ORDER);
    loads(__LINE__, with(text, "\n5 0 0 1 0 0 0 0 ", "\n5 0 0 1 0 0 1 0 "), DOCK_NOT_IN_ORDER); /* only zeros are the store */
    loads(__LINE__, with(text, "\n1 0 0 1 ", "\n1 0 0 3 "), DOCK_NOT_IN_ORDER);
    loads(__LINE__, with(text, "\n1 0 0 1 0 0 0 0 0 4 7", "\n1 0 0 1 0 0 0 0 0 4 8"), DOCK_NOT_IN_ORDER);
    loads(__LINE__, with(text, "\n5 0 0 1 ", "\n\n5 0 0 1 "), DOCK_BAD_TEXT);
    loads(__LINE__, "", DOCK_BAD_TEXT);
    loads(__LINE__, KINDS, DOCK_BAD_TEXT);
}

/* Texts cut at every byte, and texts with some bytes that are any: whatever the result, the rest is as loaded says. */
static void any_texts(const char *text)
{
    static char changed[DOCK_SAVED_ROOM + 1];
    const size_t whole = strlen(text);
    uint32_t seed = 1;
    size_t length;
    unsigned i, j;

    for (length = 0; length < whole; length++)
        if (length == 0 || text[length - 1] != '\n')
            EQUAL(loaded(__LINE__, text, length), DOCK_BAD_TEXT);
        else
            loaded(__LINE__, text, length);
    for (i = 0; i < 1000; i++) {
        memcpy(changed, text, whole);
        for (j = 0; j <= i % 3; j++) {
            seed = seed * 1664525u + 1013904223u;
            changed[(seed >> 8) % whole] = i % 2 ? (char)(seed >> 24) : "0123456789 \n"[(seed >> 24) % 12];
        }
        loaded(__LINE__, changed, whole);
    }
    for (i = 0; i < 256; i++) {
        memset(changed, (int)i, sizeof changed);
        EQUAL(loaded(__LINE__, changed, sizeof changed), DOCK_BAD_TEXT);
    }
}

/* Tables with some fields that are any, and tables of any bytes: saved or refused with 14, and never changed. */
static void any_tables(void)
{
    uint8_t *image = block(DOCK_TABLES, 0), *before, *output = block(DOCK_SAVED_ROOM, 0);
    uint32_t seed = 1;
    size_t length, at;
    unsigned i, result;

    for (i = 0; i < 500; i++) {
        memcpy(image, tables, DOCK_TABLES);
        for (at = 0; at < DOCK_TABLES; at++) {
            seed = seed * 1664525u + 1013904223u;
            if (i % 50 == 0 || seed >> 20 == 0)
                image[at] = (uint8_t)(seed >> 8) % (i % 2 ? 9 : 255);
        }
        before = copy(image, DOCK_TABLES);
        result = dock_save(image, DOCK_TABLES, output, DOCK_SAVED_ROOM, &length);
        HOLDS(result == dock_in_order(image, DOCK_TABLES));
        HOLDS(length <= DOCK_SAVED_ROOM && (length > 0) == (result == DOCK_ACCEPTED));
        HOLDS(memcmp(image, before, DOCK_TABLES) == 0);
        free(before);
    }
    free(image);
    free(output);
}

/* Eight tickets of one program, with numbers of five digits, and a ninth; the lines of more entries than there are places. */
static void many_lines(void)
{
    static char lines[DOCK_SAVED_ROOM + 1], more[DOCK_SAVED_ROOM + 1];
    char *end = lines, *entries = more;
    unsigned i;

    start();
    put(last_at(next), 65535 - DOCK_PLACES);
    for (i = 1; i <= DOCK_PLACES; i++) {
        ACCEPTED(take(next, 1, ALL), 65535 - DOCK_PLACES + i, 0);
        end += sprintf(end, "1 2 3 %u 0 0 0 0 %u 1 7\n", 65535 - DOCK_PLACES + i, i - 1);
        entries += sprintf(entries, "5 2 3 %u 0 0 0 0 %u 1 7\n", 65535 - DOCK_PLACES + i, i - 1);
    }
    strcpy(end, more);
    is_saved(__LINE__, text_of(lines));
    strcpy(end, "4 2 3 1 65535 0 0 1 0 0 0\n");
    loads(__LINE__, text_of(lines), DOCK_BAD_TEXT); /* a ninth ticket */
    start();
    for (i = 1, end = lines; i <= DOCK_ENTRIES + 1; i++)
        end += sprintf(end, "5 2 3 %u 0 0 0 0 0 1 7\n", i);
    loads(__LINE__, text_of(lines), DOCK_BAD_TEXT);
    end[-(int)strlen("5 2 3 257 0 0 0 0 0 1 7\n")] = 0;
    loads(__LINE__, text_of(lines), DOCK_NOT_IN_ORDER);
}

static void saving(void)
{
    const char *lent = "1 0 0 1 0 0 0 0 0 4 7\n2 1 0 1 0 0 0 0 1 1 1\n3 0 1 1 0 0 0 1 0 2 5\n4 0 0 2 1 0 1 1 0 0 0\n"
                       "4 0 1 2 1 1 0 1 0 0 0\n5 0 0 1 0 0 0 0 0 4 7\n5 1 0 1 0 0 0 1 1 1 1\n";
    const char *longest = "3 3 7 65535 0 3 7 65535 255 256 7\n";
    uint8_t *before;

    begin("tables as text");
    EQUAL(strlen(longest), strlen("4 3 7 65535 65535 3 7 65535 0 0 0\n"));
    EQUAL(DOCK_SAVED_ROOM, strlen(KINDS) + DOCK_PADS * DOCK_PROGRAMS * strlen("0 3 7 65535 0 0 0 0 0 0 0\n") +
                               (DOCK_PADS * DOCK_PROGRAMS * DOCK_PLACES + DOCK_ENTRIES) * strlen(longest));
    start();
    is_saved(__LINE__, text_of(""));
    ACCEPTED(take(capture, 4, ALL), 1, 0);
    WRITTEN(write_at(capture, 1, 1), 65);
    ACCEPTED(pass(capture, 1, viewer, 0, 2, DOCK_RIGHT_READ + DOCK_RIGHT_PASS_ON), 2, 1);
    ACCEPTED(pass(viewer, 1, nurse, 1, 1, DOCK_RIGHT_READ), 2, 1);
    is_saved(__LINE__, text_of(lent));
    changed_texts(text_of(lent));
    any_texts(text_of(lent));
    any_tables();
    /* The tables go over by text, the store stays: every ticket is as it was. */
    before = copy(store, DOCK_STORE);
    EQUAL(dock_load(tables, DOCK_TABLES, (const uint8_t *)text_of(lent), strlen(text_of(lent))), DOCK_ACCEPTED);
    HOLDS(memcmp(store, before, DOCK_STORE) == 0);
    READS(read_at(nurse, 1, 0), 65);
    ACCEPTED(recall(capture, 2), 0, 0);
    REFUSED(read_at(nurse, 1, 0), DOCK_NO_ENTRY);
    free(before);
    many_lines();
    end();
}

int main(void)
{
    tables = block(DOCK_TABLES, 1);
    store = block(DOCK_STORE, 1);
    sheet = block(DOCK_SHEET, 1);
    request = block(DOCK_REQUEST * sizeof *request, 1);
    answer = block(DOCK_ANSWER * sizeof *answer, 1);
    lengths();
    operations();
    rights();
    refused_requests();
    refused_tickets();
    refused_for_want();
    refused_tables();
    image_read();
    image_written();
    serving_many();
    names();
    tracing();
    reporting();
    saving();
    printf("constants: %u checks passed\n", passed);
    free(tables);
    free(store);
    free(sheet);
    free(request);
    free(answer);
    return 0;
}
