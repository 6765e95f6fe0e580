/* Counts what the library copies: a memcpy of our own, linked before the C library's, and a host that empties a dock and asks for one
 * request of each kind. Prints the copies, the bytes, and each size with how often it was copied. */
#include "dock.h"
#include <stddef.h>
#include <stdio.h>

enum { SIZES = 70000 };

static unsigned long often[SIZES], calls, bytes;

void *memcpy(void *restrict to, const void *restrict from, size_t n)
{
    volatile unsigned char *a = to;
    const unsigned char *b = from;
    for (size_t i = 0; i < n; i++)
        a[i] = b[i];
    calls++;
    bytes += n;
    if (n < SIZES)
        often[n]++;
    return to;
}

static void counted(const char *what)
{
    fprintf(stderr, "%-14s %5lu copies, %7lu bytes", what, calls, bytes);
    for (int n = 0; n < SIZES; n++) {
        if (often[n])
            fprintf(stderr, "  %lu x %d", often[n], n);
        often[n] = 0;
    }
    fprintf(stderr, "\n");
    calls = bytes = 0;
}

static struct dock dock;

static void ask(const char *what, struct dock_request request)
{
    uint8_t sheet[DOCK_SHEET] = {0};
    calls = bytes = 0;
    uint16_t result = dock_ask(&dock, request, sheet).result;
    if (result)
        fprintf(stderr, "%s: refused, %d\n", what, result);
    counted(what);
}

int main(void)
{
    dock_start(&dock);
    counted("emptying");
    /* Two taken grants for each program. */
    for (int i = 0; i < 64; i++) {
        struct dock_request take = {.pad = i / 16, .program = i / 2 % 8, .op = DOCK_TAKE, .count = 1, .rights = 7};
        uint8_t sheet[DOCK_SHEET] = {0};
        dock_ask(&dock, take, sheet);
    }
    ask("read", (struct dock_request){.op = DOCK_READ, .ticket = 1});
    ask("write", (struct dock_request){.op = DOCK_WRITE, .ticket = 1});
    ask("take", (struct dock_request){.op = DOCK_TAKE, .count = 1, .rights = 7});
    ask("pass, on a pad", (struct dock_request){.op = DOCK_PASS, .ticket = 1, .toprogram = 1, .count = 1, .rights = 7});
    ask("pass, across", (struct dock_request){.op = DOCK_PASS, .ticket = 1, .topad = 1, .count = 1, .rights = 7});
    ask("recall, near", (struct dock_request){.op = DOCK_RECALL, .ticket = 4});
    ask("recall, far", (struct dock_request){.op = DOCK_RECALL, .ticket = 5});
    ask("give back", (struct dock_request){.op = DOCK_GIVE_BACK, .ticket = 1});
}
