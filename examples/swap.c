/*
 * A dock that is swapped in service: the first plays a part of the ward's story and saves its tables as
 * text; the second loads them, gets the store's bytes, and plays on. Together they print what
 * examples/ward.c prints.
 *
 * cc -std=c99 -O2 -Iinclude examples/swap.c target/staticlib/libdock.a -o swap
 */
#include "story.h"

/* The swap comes behind this line, while the viewer and the nurse have loans. */
enum { SWAP = 7 };

static void play(struct dock *dock, size_t from, size_t to)
{
    size_t line;

    for (line = from; line < to; line++) {
        uint8_t sheet[DOCK_SHEET];
        struct dock_answer answer;

        fill_sheet(line, sheet);
        answer = dock_ask(dock, story[line].request, sheet);
        print_answer(line, answer, sheet);
    }
}

int main(void)
{
    static struct dock old, new;
    static uint8_t text[DOCK_SAVED_ROOM];
    size_t length;
    uint16_t result;

    dock_start(&old);
    print_names();
    play(&old, 0, SWAP);

    result = dock_save(old.tables, DOCK_TABLES, text, sizeof text, &length);
    if (result == DOCK_ACCEPTED)
        result = dock_load(new.tables, DOCK_TABLES, text, length);
    if (result != DOCK_ACCEPTED) {
        fprintf(stderr, "the dock stays: %s\n", dock_result_name(result));
        return 1;
    }
    memcpy(new.store, old.store, DOCK_STORE); /* from the same moment as the text */

    play(&new, SWAP, LINES);
    return 0;
}
