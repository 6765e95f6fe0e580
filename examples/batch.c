/*
 * A host that gathers requests and has them served by one call, each with a sheet buffer of its own. It
 * prints what examples/ward.c prints, and on standard error, in words, why a request was refused.
 *
 * cc -std=c99 -O2 -Iinclude examples/batch.c target/staticlib/libdock.a -o batch
 */
#include "story.h"

int main(void)
{
    static struct dock dock;
    static struct dock_request requests[LINES];
    static uint8_t sheets[LINES][DOCK_SHEET];
    static struct dock_answer answers[LINES];
    size_t line;
    uint16_t result;

    for (line = 0; line < LINES; line++) {
        requests[line] = story[line].request;
        fill_sheet(line, sheets[line]);
    }
    dock_start(&dock);
    result = dock_ask_all(&dock, requests, sheets, answers, LINES);
    if (result != DOCK_ACCEPTED) {
        fprintf(stderr, "nothing was served: %s\n", dock_result_name(result));
        return 1;
    }
    print_names();
    for (line = 0; line < LINES; line++) {
        print_answer(line, answers[line], sheets[line]);
        if (answers[line].result != DOCK_ACCEPTED)
            fprintf(stderr, "line %d: %s\n", (int)line + 1, dock_result_name(answers[line].result));
    }
    return 0;
}
