/*
 * A small host: it keeps one dock and plays the ward's story on it, request by request. What it
 * prints is what the trace program prints for crates/test_cases/data/ward.in.
 *
 * cc -std=c99 -O2 -Iinclude examples/ward.c target/staticlib/libdock.a -o ward
 */
#include "story.h"

int main(void)
{
    static struct dock dock;
    size_t line;

    dock_start(&dock);
    print_names();
    for (line = 0; line < LINES; line++) {
        uint8_t sheet[DOCK_SHEET];
        struct dock_answer answer;

        fill_sheet(line, sheet);
        answer = dock_ask(&dock, story[line].request, sheet);
        print_answer(line, answer, sheet);
    }
    return 0;
}
