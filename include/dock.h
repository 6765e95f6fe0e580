/*
 * The dock's ink store and the tickets to it: the C boundary of the proved library.
 *
 * Build it with `make` and link target/staticlib/libdock.a; where it is installed by
 * `make install`, the flags come from pkg-config. "Document 01" is the paper of requirements that the
 * numbers and the words below come from.
 *
 * What the caller guarantees, in every call:
 *   - a pointer is not null and is valid for its length, also where the length is 0;
 *     a length counts elements, not bytes;
 *   - pointers to uint16_t are aligned;
 *   - the buffers of a call do not overlap;
 *   - one call at a time on the same buffers. Calls on other buffers may run beside it;
 *   - DOCK_STACK bytes of stack are left, DOCK_REPORT_STACK for dock_report, DOCK_TRACE_STACK for
 *     dock_trace. These numbers are measured, not proved, and the library does not notice a stack that
 *     is too small;
 *   - a dock is lent whole, tables and store together, and left alone between calls: a host that
 *     changes them begins a new sequence of requests;
 *   - pad and program of a request are those of its true sender. The library cannot know who asks.
 *
 * What the library guarantees: it keeps nothing between calls and allocates nothing. Tables, store
 * and sheets belong to the host. Any bytes may be handed in as tables: those that are none, or are
 * not in order, are refused.
 *
 * Any thread of the host may call. Programs on the pads should not: whoever can write to the tables
 * can make tickets.
 *
 * Tables and store change in place. A call that does not run to its end (a loss of power, a signal
 * handler that does not return, a thread that is stopped) leaves them half changed. A host that must
 * survive this keeps a copy of both from before the call, and goes back to both. dock_in_order refuses
 * many half changed tables, not all; the store is in no test.
 */
#ifndef DOCK_H
#define DOCK_H

#include <stddef.h>
#include <stdint.h>

#ifdef __cplusplus
extern "C" {
#endif

/* Lengths of the buffers, in elements. */
#define DOCK_TABLES 11328 /* bytes of the tables: the image laid out below */
#define DOCK_STORE 16384  /* bytes of the store: 256 sheets */
#define DOCK_SHEET 64     /* bytes of a sheet, and of a request's sheet buffer */
#define DOCK_REQUEST 9    /* numbers of a request */
#define DOCK_ANSWER 3     /* numbers of an answer */
#define DOCK_TRACE_INPUT 65536 /* bytes of the longest input of a trace */
#define DOCK_TRACE_ROOM 983074 /* bytes that every trace fits into */
#define DOCK_REPORT_SCRATCH 32 /* bytes of the scratch of a report: one bit for each ticket place */
#define DOCK_REPORT_ROOM 6196  /* bytes that every report fits into */
#define DOCK_SAVED_ROOM 18309  /* bytes that every saved text fits into */

/* The version that this header belongs to: major * 10000 + minor * 100 + patch. */
#define DOCK_VERSION 50000

/*
 * Bytes of stack that a call may take, its own frame included. dock_report has its own number, because
 * it goes from loan to loan, up to 127 deep; dock_trace too, because it measures a trace on a copy of the
 * dock. tests/stack.c measures at most 16,248, 34,020 and 43,768; this is not proved.
 */
#define DOCK_STACK 32768
#define DOCK_REPORT_STACK 49152
#define DOCK_TRACE_STACK 65536

/* How many there are. */
#define DOCK_PADS 4      /* pads 0 to 3 */
#define DOCK_PROGRAMS 8  /* programs 0 to 7 on each pad */
#define DOCK_PLACES 8    /* places for tickets in each program */
#define DOCK_ENTRIES 256 /* places for entries in the dock */
#define DOCK_SHEETS 256  /* sheets 0 to 255 in the store */

/*
 * Operations, with the fields of a request that each uses. The other fields must be 0.
 *
 * A take uses the smallest free run that is long enough, the lowest one among equals, from its lowest sheet;
 * a free run is one that can't be made longer. Its answer does not tell which sheets these are, since a
 * program counts from its ticket's first one; dock_check, dock_report and dock_save do.
 */
enum dock_operation {
    DOCK_TAKE = 1,      /* count, rights: sheets from the store, as zeros */
    DOCK_PASS = 2,      /* ticket, topad, toprogram, first, count, rights: lends a part */
    DOCK_RECALL = 3,    /* ticket (a recall): takes back what was lent, with all that was lent on from it */
    DOCK_GIVE_BACK = 4, /* ticket (a taken grant): the sheets become zeros and are free */
    DOCK_READ = 5,      /* ticket, first: copies the sheet into the sheet buffer */
    DOCK_WRITE = 6      /* ticket, first: copies the sheet buffer into the sheet */
};

/*
 * Rights, added together: 1 to 7. Whether the rights asked lie within those held, bit by bit, is looked up
 * in the rights chart, 1 for yes:
 *
 *     asked                  held 0 1 2 3 4 5 6 7
 *     0 nothing                   1 1 1 1 1 1 1 1
 *     1 read                      0 1 0 1 0 1 0 1
 *     2 write                     0 0 1 1 0 0 1 1
 *     3 read, write               0 0 0 1 0 0 0 1
 *     4 pass on                   0 0 0 0 1 1 1 1
 *     5 read, pass on             0 0 0 0 0 1 0 1
 *     6 write, pass on            0 0 0 0 0 0 1 1
 *     7 read, write, pass on      0 0 0 0 0 0 0 1
 */
enum dock_right {
    DOCK_RIGHT_READ = 1,   /* may read its sheets */
    DOCK_RIGHT_WRITE = 2,  /* may write on them */
    DOCK_RIGHT_PASS_ON = 4 /* may lend them, with no more rights than it has itself */
};

/*
 * Results: accepted, or the first refusal that holds (document 01 gives the order). A refused request
 * leaves tables, store and sheet buffer untouched. DOCK_NO_ENTRY alone drops tickets: the taken or
 * received grant that heads the ticket's chain, and all under it on that pad.
 */
enum dock_result {
    DOCK_ACCEPTED = 0,      /* done; changed is only what the operation names */
    DOCK_NO_PROGRAM = 1,    /* pad above 3 or program above 7 */
    DOCK_NO_OPERATION = 2,  /* op outside 1 to 6 */
    DOCK_FIELD = 3,         /* a used field out of range, or an unused one not 0 */
    DOCK_NO_TICKET = 4,     /* the asker has no live ticket of that number */
    DOCK_WRONG_KIND = 5,    /* a recall where a grant is needed, or a grant of the wrong kind */
    DOCK_BEYOND = 6,        /* outside the ticket's sheets */
    DOCK_RIGHT_LACKING = 7, /* the ticket lacks a right */
    DOCK_TO_ONESELF = 8,    /* the recipient is the asker */
    DOCK_NO_PLACE = 9,      /* asker or recipient has eight tickets */
    DOCK_NO_NUMBER = 10,    /* asker's or recipient's last number is 65,535 */
    DOCK_NO_RUN = 11,       /* no free run of the store is long enough */
    DOCK_NO_ENTRY = 12,     /* the dock has no entry of the ticket's dock name: it was recalled */
    DOCK_LENGTH = 13,       /* a buffer has another length */
    DOCK_NOT_IN_ORDER = 14, /* the bytes are no tables, or the tables are not in order */
    DOCK_OTHER_FORM = 15,   /* only in traces: a line or text of another form */
    DOCK_SCRATCH = 16,      /* the scratch of a report has another length */
    DOCK_TOO_SHORT = 17,    /* the output is too short */
    DOCK_BAD_TEXT = 18      /* a text of another form or order */
};

/* Kinds of ticket, as the image has them. */
enum dock_kind {
    DOCK_KIND_FREE = 0,     /* no ticket: a free place */
    DOCK_KIND_TAKEN = 1,    /* a grant from the store */
    DOCK_KIND_RECEIVED = 2, /* a grant from another pad */
    DOCK_KIND_CHILD = 3,    /* a grant from another program of the same pad */
    DOCK_KIND_RECALL = 4    /* can only take back */
};

/*
 * The image of the tables: DOCK_TABLES bytes, every field 16 bits, low byte first, no padding.
 *
 *   at                                  size    what
 *   194 * (8 * pad + program)           194     a program
 *       + 24 * place                     24       a ticket, place 0 to 7
 *           + 0                                     kind (enum dock_kind)
 *           + 2                                     number
 *           + 4                                     own: of a recall, the number of the grant that it
 *                                                     stands under, of the same program
 *           + 6, + 8, + 10                          other: pad, program, number of a child's parent
 *                                                     or of a recall's target
 *           + 12, + 14, + 16                        of a grant: first sheet, count, rights
 *           + 18, + 20, + 22                        of a grant: dock name (pad, program, number)
 *       + 192                             2       last number given
 *   6208 + 20 * e                        20     an entry of the dock, place e from 0 to 255
 *       + 0                                       live: 0 or 1
 *       + 2, + 4, + 6                             name (pad, program, number)
 *       + 8, + 10, + 12                           parent (pad, program, number); 0, 0, 0: the store,
 *                                                   and no other parent has the number 0
 *       + 14, + 16, + 18                          first sheet, count, rights
 *
 * Fields that a kind does not use say nothing. A free place, or an entry that is not live, may hold
 * anything in its other fields. A kind above 4 or a live above 1 anywhere: the bytes are no tables.
 * In which place a ticket or an entry is kept means nothing: do not compare images by their bytes.
 */
#define DOCK_PROGRAM_SIZE 194 /* bytes of a program */
#define DOCK_TICKET_SIZE 24   /* bytes of a ticket */
#define DOCK_LAST_AT 192      /* in a program: last number given */
#define DOCK_ENTRIES_AT 6208  /* in the image: the entries */
#define DOCK_ENTRY_SIZE 20    /* bytes of an entry */

/* In a ticket; which kinds use a field is in the table above. */
#define DOCK_TICKET_KIND_AT 0
#define DOCK_TICKET_NUMBER_AT 2
#define DOCK_TICKET_OWN_AT 4
#define DOCK_TICKET_OTHER_AT 6 /* a name */
#define DOCK_TICKET_FIRST_AT 12
#define DOCK_TICKET_COUNT_AT 14
#define DOCK_TICKET_RIGHTS_AT 16
#define DOCK_TICKET_DOCK_AT 18 /* a name */

/* In an entry. */
#define DOCK_ENTRY_LIVE_AT 0
#define DOCK_ENTRY_NAME_AT 2   /* a name */
#define DOCK_ENTRY_PARENT_AT 8 /* a name */
#define DOCK_ENTRY_FIRST_AT 14
#define DOCK_ENTRY_COUNT_AT 16
#define DOCK_ENTRY_RIGHTS_AT 18

/* In a name. */
#define DOCK_NAME_PAD_AT 0
#define DOCK_NAME_PROGRAM_AT 2
#define DOCK_NAME_NUMBER_AT 4

/*
 * The version of the library, as DOCK_VERSION is of the header. A host compares
 * dock_version() / 10000 with DOCK_VERSION / 10000: another major number means that lengths or
 * meanings changed.
 */
uint32_t dock_version(void);

/* The length of the tables, DOCK_TABLES: for a host that does not compile this header. */
size_t dock_tables_length(void);

/*
 * Empties the dock: tables without tickets or entries, last numbers 0, a store of zeros.
 * DOCK_LENGTH where tables_length is not DOCK_TABLES: nothing changes. DOCK_LENGTH too where
 * store_length is not DOCK_STORE: the store stays as it was, the tables are emptied all the same.
 */
uint16_t dock_empty(uint8_t *tables, size_t tables_length, uint8_t *store, size_t store_length);

/*
 * Serves one request. Lengths: DOCK_TABLES, DOCK_STORE, DOCK_SHEET, DOCK_REQUEST, DOCK_ANSWER.
 * A request is pad, program, op, ticket, topad, toprogram, first, count, rights; first counts from
 * the ticket's first sheet. An answer is result, the asker's new number, the recipient's new number,
 * 0 where there is none. The result is also what the function returns.
 * DOCK_LENGTH or DOCK_NOT_IN_ORDER: nothing is written, nor is the answer.
 *
 * Every request leaves tables in order that were in order before it, so that from an emptied dock
 * DOCK_NOT_IN_ORDER never comes.
 */
uint16_t dock_step(uint8_t *tables, size_t tables_length, uint8_t *store, size_t store_length,
                   uint8_t *sheet, size_t sheet_length,
                   const uint16_t *request, size_t request_length,
                   uint16_t *answer, size_t answer_length);

/*
 * Serves n requests, one after the other, each as dock_step would. Lengths: DOCK_TABLES, DOCK_STORE,
 * DOCK_SHEET * n, DOCK_REQUEST * n, DOCK_ANSWER * n, for one n, which may be 0.
 * DOCK_LENGTH or DOCK_NOT_IN_ORDER: nothing is written. Otherwise DOCK_ACCEPTED: every request has its
 * answer, in which it may have been refused, with 1 to 12.
 */
uint16_t dock_serve(uint8_t *tables, size_t tables_length, uint8_t *store, size_t store_length,
                    uint8_t *sheets, size_t sheets_length,
                    const uint16_t *requests, size_t requests_length,
                    uint16_t *answers, size_t answers_length);

/*
 * The dock's own check: may the bearer of the name pad, program, number use this sheet of the store
 * (0 to 255) by this right (DOCK_RIGHT_READ or DOCK_RIGHT_WRITE)? DOCK_LENGTH, DOCK_NOT_IN_ORDER,
 * DOCK_FIELD (no such sheet, another right), DOCK_NO_ENTRY (also for names that cannot be),
 * DOCK_BEYOND, DOCK_RIGHT_LACKING or DOCK_ACCEPTED. Changes nothing.
 */
uint16_t dock_check(const uint8_t *tables, size_t tables_length,
                    uint16_t pad, uint16_t program, uint16_t number, uint16_t sheet, uint16_t right);

/*
 * DOCK_LENGTH, DOCK_NOT_IN_ORDER, or DOCK_ACCEPTED for tables in order. Changes nothing.
 *
 * A host that kept tables of version 1 asks this once before it goes on with them: there a recall on a
 * pad left the loans that were made from it to other pads, and such tables are not in order any more.
 * On DOCK_NOT_IN_ORDER the ways out are to give all takes back with the old library and then go on, or
 * to empty the dock. Tables that were never left so are in order as before. Those that version 2 left
 * are, but where a host itself wrote a parent with number 0 and a pad or program beside it. Those that
 * version 3 left are.
 */
uint16_t dock_in_order(const uint8_t *tables, size_t tables_length);

/*
 * The trace: requests as text in, answers as text out, as the trace program has them, on this dock.
 * The input's first line is
 *     pad program op ticket topad toprogram first count rights fill
 * and each line behind it a request, served in turn as dock_step would; fill is the byte of a write's
 * whole sheet buffer, 0 elsewhere. The output's first line is
 *     line result ticket recipient byte
 * and each line behind it tells of one request: the line's number, from 1; its answer; the first byte
 * of an accepted read, or 0. A line of another form has the result 15 and changes nothing. An input
 * with other names, or above DOCK_TRACE_INPUT bytes, has the one line 0 15 0 0 0.
 *
 * Lengths: DOCK_TABLES, DOCK_STORE; input and output may have any. The trace goes to the front of the
 * output and its length to *length. DOCK_LENGTH, DOCK_NOT_IN_ORDER, or DOCK_TOO_SHORT where the output is
 * too short for the whole trace: *length is 0, and nothing else is written. An output below
 * DOCK_TRACE_ROOM bytes costs a second run, for the length. Otherwise DOCK_ACCEPTED.
 */
uint16_t dock_trace(uint8_t *tables, size_t tables_length, uint8_t *store, size_t store_length,
                    const uint8_t *input, size_t input_length,
                    uint8_t *output, size_t output_length, size_t *length);

/*
 * The ward report: who can read what. The first line is
 *     depth pad program ticket first count rights
 * and each line behind it a grant that the dock lets through: its depth, its name, its first sheet in the
 * store, how many, its rights. Taken grants have depth 0 and come by pad, program and number. A grant's line
 * is followed by its loans, to its own pad and to others, by the numbers of their recalls; each has a depth
 * of one more and its own loans behind it. A loan whose entry has gone is left out, with all that was lent
 * on from it, also while its grant is still on the pad. The last line has two numbers: the sheets taken,
 * which is the sum of the counts at depth 0, and the sheets free; together they are DOCK_SHEETS.
 *
 * Lengths: DOCK_TABLES, DOCK_REPORT_SCRATCH; the output may have any. The report goes to the front of the
 * output and its length to *length. The scratch may hold anything before; after every result each of its
 * bytes is 0, whatever its length. DOCK_LENGTH for the tables, DOCK_NOT_IN_ORDER, DOCK_SCRATCH where the
 * scratch has another length, or DOCK_TOO_SHORT where the output is too short for the whole report:
 * *length is 0, and the output stays as it was. An output below DOCK_REPORT_ROOM bytes costs a second walk,
 * for the length. Otherwise DOCK_ACCEPTED. The tables never change.
 */
uint16_t dock_report(const uint8_t *tables, size_t tables_length,
                     uint8_t *scratch, size_t scratch_length,
                     uint8_t *output, size_t output_length, size_t *length);

/*
 * The tables as text: what one dock saves another loads, and knows every ticket. The first line is
 *     kind pad program number own opad oprogram onumber first count rights
 * and each line behind it one of these, with 0 for what its kind does not use:
 *     0     a program: number is the last that it was given. All DOCK_PADS * DOCK_PROGRAMS stand there once
 *     1, 2  a taken, a received grant: its name (pad, program, number), first, count, rights
 *     3     a child: as 1, and in opad, oprogram, onumber its parent's name
 *     4     a recall: its name, in own the number of its grant, in opad, oprogram, onumber its target's name
 *     5     an entry: its name, its parent's (0 0 0: the store), first, count, rights
 * The lines stand by kind, pad, program and number, strictly rising. Numbers are decimal, at most 65535,
 * without leading zeros, one space between; byte 10 ends every line. A child's dock name is not written: it
 * is the name of the grant that heads its chain. Two tables that say the same have the same text.
 *
 * The store is not in the text. A host that swaps docks carries its DOCK_STORE bytes over by itself, text
 * and store from one moment between two calls: over another store the tickets open other ink. Whoever can
 * write the text can make tickets, as with the tables.
 */

/*
 * Saves the tables. Lengths: DOCK_TABLES; the output may have any. The text goes to the front of the
 * output and its length to *length. DOCK_LENGTH, DOCK_NOT_IN_ORDER, or DOCK_TOO_SHORT where the output is
 * too short for the whole text: *length is 0, and the output stays as it was. An output below
 * DOCK_SAVED_ROOM bytes costs a second pass, for the length. Otherwise DOCK_ACCEPTED. The tables never
 * change.
 */
uint16_t dock_save(const uint8_t *tables, size_t tables_length,
                   uint8_t *output, size_t output_length, size_t *length);

/*
 * Loads tables from a text; what they held before means nothing. DOCK_LENGTH where tables_length is not
 * DOCK_TABLES: nothing changes. DOCK_BAD_TEXT where the text has another form or order: other names, a
 * line of another form, an unused number that is not 0, a kind above 5, a pad or opad above 3, a program
 * or oprogram above 7, a line that does not stand above the one before it, a program without its one line
 * of kind 0, a ninth ticket of a program, a 257th entry, no byte 10 at the end. DOCK_NOT_IN_ORDER where it
 * is in form and its tables are not in order. After these two the tables are those of an emptied dock.
 * Otherwise DOCK_ACCEPTED: the tables are those of the text, and saving them gives it back byte for byte.
 */
uint16_t dock_load(uint8_t *tables, size_t tables_length, const uint8_t *text, size_t text_length);

/* The rest is convenience over the functions above, and no part of the library. */

/* A dock: what a host keeps. */
struct dock {
    uint8_t tables[DOCK_TABLES];
    uint8_t store[DOCK_STORE];
};

/* A request; fields that the operation does not use must be 0. */
struct dock_request {
    uint16_t pad, program, op, ticket, topad, toprogram, first, count, rights;
};

/* An answer; 0 where there is no new ticket. */
struct dock_answer {
    uint16_t result, ticket, recipient;
};

/* Without padding they are their numbers in a row, and are lent as they lie, from the first one on. */
typedef char dock_request_has_no_padding
    [sizeof(struct dock_request) == DOCK_REQUEST * sizeof(uint16_t) ? 1 : -1];
typedef char dock_answer_has_no_padding
    [sizeof(struct dock_answer) == DOCK_ANSWER * sizeof(uint16_t) ? 1 : -1];

/* Empties a dock. Each dock starts with this. */
static inline void dock_start(struct dock *dock)
{
    (void)dock_empty(dock->tables, DOCK_TABLES, dock->store, DOCK_STORE);
}

/*
 * Serves one request. The sheet buffer is needed for every operation, though only read and write use
 * it. Where the tables are not in order the answer is 14 0 0.
 */
static inline struct dock_answer dock_ask(struct dock *dock, struct dock_request request,
                                          uint8_t sheet[DOCK_SHEET])
{
    struct dock_answer answer = {0, 0, 0};
    /* The returned number is the result also where the library writes no answer. */
    answer.result = dock_step(dock->tables, DOCK_TABLES, dock->store, DOCK_STORE, sheet, DOCK_SHEET,
                              &request.pad, DOCK_REQUEST, &answer.result, DOCK_ANSWER);
    return answer;
}

/*
 * Serves n requests, one after the other, each with a sheet buffer and an answer of its own: dock_serve
 * for structs. DOCK_ACCEPTED, or DOCK_NOT_IN_ORDER, and then no answer is written.
 */
static inline uint16_t dock_ask_all(struct dock *dock, const struct dock_request *requests,
                                    uint8_t (*sheets)[DOCK_SHEET], struct dock_answer *answers,
                                    size_t n)
{
    return dock_serve(dock->tables, DOCK_TABLES, dock->store, DOCK_STORE, *sheets, DOCK_SHEET * n,
                      &requests->pad, DOCK_REQUEST * n, &answers->result, DOCK_ANSWER * n);
}

/* A result in words. */
static inline const char *dock_result_name(uint16_t result)
{
    switch (result) {
    case DOCK_ACCEPTED: return "accepted";
    case DOCK_NO_PROGRAM: return "no such pad or program";
    case DOCK_NO_OPERATION: return "no such operation";
    case DOCK_FIELD: return "a field out of range, or an unused one not 0";
    case DOCK_NO_TICKET: return "no live ticket of that number";
    case DOCK_WRONG_KIND: return "the wrong kind of ticket";
    case DOCK_BEYOND: return "beyond the ticket's sheets";
    case DOCK_RIGHT_LACKING: return "a right is lacking";
    case DOCK_TO_ONESELF: return "the recipient is the asker";
    case DOCK_NO_PLACE: return "no free place for a ticket";
    case DOCK_NO_NUMBER: return "no number left";
    case DOCK_NO_RUN: return "no run of so many free sheets";
    case DOCK_NO_ENTRY: return "the dock has no entry for the ticket";
    case DOCK_LENGTH: return "a buffer has another length";
    case DOCK_NOT_IN_ORDER: return "the tables are not in order";
    case DOCK_OTHER_FORM: return "a line or text of another form";
    case DOCK_SCRATCH: return "the scratch has another length";
    case DOCK_TOO_SHORT: return "the output is too short";
    case DOCK_BAD_TEXT: return "the text has another form or order";
    default: return "no such result";
    }
}

#ifdef __cplusplus
}
#endif

#endif
