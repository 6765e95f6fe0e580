/*
 * The ward's story as requests, for the hosts that play it: crates/test_cases/data/ward.in in C. A story is
 * printed as the trace program prints it.
 */
#include "dock.h"
#include <stdio.h>
#include <string.h>

/* Who is who: pad 0 is at the bedside, pad 1 is the nurse's, pad 2 the doctor's and the next patient's. */
#define CAPTURE .pad = 0, .program = 0
#define VIEWER .pad = 0, .program = 1
#define NURSE .pad = 1, .program = 0
#define DOCTOR .pad = 2, .program = 0
#define NEXT .pad = 2, .program = 3
#define TO_VIEWER .topad = 0, .toprogram = 1
#define TO_NURSE .topad = 1, .toprogram = 0
#define TO_DOCTOR .topad = 2, .toprogram = 0
#define READ_ON (DOCK_RIGHT_READ + DOCK_RIGHT_PASS_ON)
#define ALL (READ_ON + DOCK_RIGHT_WRITE)

static const struct {
    struct dock_request request;
    uint8_t fill; /* a write's 64 bytes */
} story[] = {
    /* The capture program takes four sheets and gets ticket 1. It writes on the first of them. */
    {{CAPTURE, .op = DOCK_TAKE, .count = 4, .rights = ALL}, 0},
    {{CAPTURE, .op = DOCK_WRITE, .ticket = 1, .first = 0}, 65},
    /* It lends two sheets to the viewer, which may read them and pass them on, and may not write. */
    {{CAPTURE, .op = DOCK_PASS, .ticket = 1, TO_VIEWER, .count = 2, .rights = READ_ON}, 0},
    {{VIEWER, .op = DOCK_READ, .ticket = 1, .first = 0}, 0},
    {{VIEWER, .op = DOCK_WRITE, .ticket = 1, .first = 0}, 66},
    /* The viewer lends one sheet on to the nurse, on another pad. She may read that sheet and no other. */
    {{VIEWER, .op = DOCK_PASS, .ticket = 1, TO_NURSE, .count = 1, .rights = DOCK_RIGHT_READ}, 0},
    {{NURSE, .op = DOCK_READ, .ticket = 1, .first = 0}, 0},
    {{NURSE, .op = DOCK_WRITE, .ticket = 1, .first = 0}, 66},
    {{NURSE, .op = DOCK_READ, .ticket = 1, .first = 1}, 0},
    /* The capture program lends a sheet to the doctor and recalls it. His pad learns of it at his next
       read, and drops his ticket. */
    {{CAPTURE, .op = DOCK_PASS, .ticket = 1, TO_DOCTOR, .first = 2, .count = 1, .rights = DOCK_RIGHT_READ}, 0},
    {{DOCTOR, .op = DOCK_READ, .ticket = 1, .first = 0}, 0},
    {{CAPTURE, .op = DOCK_RECALL, .ticket = 3}, 0},
    {{DOCTOR, .op = DOCK_READ, .ticket = 1, .first = 0}, 0},
    {{DOCTOR, .op = DOCK_READ, .ticket = 1, .first = 0}, 0},
    /* It recalls the viewer's loan. On the same pad the ticket goes at once, and the nurse's loan, which
       the viewer made from it, ends too. */
    {{CAPTURE, .op = DOCK_RECALL, .ticket = 2}, 0},
    {{VIEWER, .op = DOCK_READ, .ticket = 1, .first = 0}, 0},
    {{NURSE, .op = DOCK_READ, .ticket = 1, .first = 0}, 0},
    {{NURSE, .op = DOCK_READ, .ticket = 1, .first = 0}, 0},
    /* It gives its sheets back. For the next patient they are taken again, and read as zeros. */
    {{CAPTURE, .op = DOCK_GIVE_BACK, .ticket = 1}, 0},
    {{NEXT, .op = DOCK_TAKE, .count = 4, .rights = ALL}, 0},
    {{NEXT, .op = DOCK_READ, .ticket = 1, .first = 0}, 0},
};

enum { LINES = sizeof story / sizeof story[0] };

/* The sheet buffer that a line's request comes with. */
static void fill_sheet(size_t line, uint8_t sheet[DOCK_SHEET])
{
    memset(sheet, story[line].fill, DOCK_SHEET);
}

static void print_names(void)
{
    printf("line result ticket recipient byte\n");
}

/* A line's answer, with the first byte of what an accepted read left in the sheet buffer. */
static void print_answer(size_t line, struct dock_answer answer, const uint8_t sheet[DOCK_SHEET])
{
    int read = story[line].request.op == DOCK_READ && answer.result == DOCK_ACCEPTED;
    int byte = read ? sheet[0] : 0;

    printf("%d %d %d %d %d\n", (int)line + 1, answer.result, answer.ticket, answer.recipient, byte);
}
