/*
 * How much stack the library's functions take. Each is called on a stack that was filled with one byte; the deepest byte that changed
 * counts. Exit 1 where one takes more than DOCK_STACK, dock_report more than DOCK_REPORT_STACK, dock_trace more than DOCK_TRACE_STACK, or
 * where a call has another result than it should.
 */
#include "dock.h"
#include "image.h"
#include <pthread.h>
#include <stdio.h>
#include <stdlib.h>
#include <string.h>
#include <sys/mman.h>

#define ROOM (1024 * 1024)
#define MARK 0xa5
#define ALL (DOCK_RIGHT_READ + DOCK_RIGHT_WRITE + DOCK_RIGHT_PASS_ON)

static struct dock dock;
static struct dock_request request;
static struct dock_answer answer;
static uint8_t sheet[DOCK_SHEET];

/* What a measured call answered. */
static unsigned result;

/* The ticket of program 0 of pad 0 that all chains hang on, and its sheet. */
static uint16_t root_ticket, root_sheet;

static void nothing(void)
{
}

static void empty(void)
{
    dock_start(&dock);
    result = DOCK_ACCEPTED;
}

static void step(void)
{
    answer = dock_ask(&dock, request, sheet);
    result = answer.result;
}

static void serve(void)
{
    static struct dock_request requests[2];
    static struct dock_answer answers[2];
    static uint8_t sheets[2][DOCK_SHEET];

    requests[1] = request;
    result = dock_ask_all(&dock, requests, sheets, answers, 2);
}

static void check(void)
{
    result = dock_check(dock.tables, DOCK_TABLES, 0, 0, root_ticket, root_sheet, DOCK_RIGHT_READ);
}

static void order(void)
{
    result = dock_in_order(dock.tables, DOCK_TABLES);
}

/* Two requests that change nothing, traced into an output that every trace fits into, and into none at all. */
static const char text[] = "pad program op ticket topad toprogram first count rights fill\n"
                           "0 0 5 1 0 0 0 0 0 0\n"
                           "3 7 3 65535 0 0 0 0 0 0\n";
static uint8_t output[DOCK_TRACE_ROOM];

static void trace_into(size_t output_length)
{
    size_t length;
    result = dock_trace(dock.tables, DOCK_TABLES, dock.store, DOCK_STORE, (const uint8_t *)text, sizeof text - 1, output, output_length,
                        &length);
}

static void trace(void)
{
    trace_into(sizeof output);
}

static void trace_without_room(void)
{
    trace_into(0);
}

/* The report, into an output that every report fits into, and into none at all. */
static size_t report_length;

static void report_into(size_t output_length)
{
    static uint8_t scratch[DOCK_REPORT_SCRATCH];
    result = dock_report(dock.tables, DOCK_TABLES, scratch, sizeof scratch, output, output_length, &report_length);
}

static void report(void)
{
    report_into(DOCK_REPORT_ROOM);
}

static void report_without_room(void)
{
    report_into(0);
}

/* The tables as text, into an output that every text fits into, and into none at all. */
static size_t saved_length;

static void save_into(size_t output_length)
{
    result = dock_save(dock.tables, DOCK_TABLES, output, output_length, &saved_length);
}

static void save(void)
{
    save_into(DOCK_SAVED_ROOM);
}

static void save_without_room(void)
{
    save_into(0);
}

/* A text, loaded into tables of their own. */
static char made_text[65536];
static size_t made_length;

static void load(void)
{
    static uint8_t loaded[DOCK_TABLES];
    result = dock_load(loaded, DOCK_TABLES, (const uint8_t *)made_text, made_length);
}

static void *run(void *what)
{
    (*(void (**)(void))what)();
    return NULL;
}

/* The bytes of stack that a thread takes which makes this call. */
static size_t depth(void (*what)(void))
{
    uint8_t *stack = mmap(NULL, ROOM, PROT_READ | PROT_WRITE, MAP_PRIVATE | MAP_ANONYMOUS, -1, 0);
    pthread_attr_t attributes;
    pthread_t thread;
    size_t untouched = 0;
    if (stack == MAP_FAILED)
        exit(2);
    memset(stack, MARK, ROOM);
    if (pthread_attr_init(&attributes) || pthread_attr_setstack(&attributes, stack, ROOM) ||
        pthread_create(&thread, &attributes, run, &what) || pthread_join(thread, NULL))
        exit(2);
    while (untouched < ROOM && stack[untouched] == MARK)
        untouched++;
    munmap(stack, ROOM);
    return ROOM - untouched;
}

static size_t thread_alone, most, most_of_reports, most_of_traces;

/* Measures a call, which must have this result, into the most of its sort. */
static void measure_into(size_t *sort, const char *name, void (*what)(void), unsigned wanted)
{
    size_t bytes = depth(what) - thread_alone;
    printf("%s: %zu bytes\n", name, bytes);
    if (bytes > *sort)
        *sort = bytes;
    if (result != wanted) {
        fprintf(stderr, "stack: %s: %s, not %s\n", name, dock_result_name((uint16_t)result), dock_result_name((uint16_t)wanted));
        exit(1);
    }
}

static void measure(const char *name, void (*what)(void), unsigned wanted)
{
    measure_into(&most, name, what, wanted);
}

static void ask(const char *name, struct dock_request asked, unsigned wanted)
{
    request = asked;
    measure(name, step, wanted);
}

/* Lines of a saved text, made here, because tables out of order have no other. */

enum { COLUMNS = 11 };
static unsigned lines[DOCK_PADS * DOCK_PROGRAMS * (1 + DOCK_PLACES) + DOCK_ENTRIES][COLUMNS];
static unsigned line_count;

static void add_line(unsigned kind, unsigned pad, unsigned program, unsigned number)
{
    unsigned *line = lines[line_count++];
    memset(line, 0, sizeof lines[0]);
    line[0] = kind;
    line[1] = pad;
    line[2] = program;
    line[3] = number;
}

/* Three numbers of the image, which stand in a row, into the last line. */
static void add_numbers(unsigned column, size_t at)
{
    unsigned i;
    for (i = 0; i < 3; i++)
        lines[line_count - 1][column + i] = get(at + 2 * i);
}

static void add_ticket(struct who who, size_t at)
{
    unsigned kind = get(at + DOCK_TICKET_KIND_AT);

    if (kind == DOCK_KIND_FREE)
        return;
    add_line(kind, who.pad, who.program, get(at + DOCK_TICKET_NUMBER_AT));
    if (kind == DOCK_KIND_RECALL)
        lines[line_count - 1][4] = get(at + DOCK_TICKET_OWN_AT);
    if (kind == DOCK_KIND_RECALL || kind == DOCK_KIND_CHILD)
        add_numbers(5, at + DOCK_TICKET_OTHER_AT);
    if (kind != DOCK_KIND_RECALL)
        add_numbers(8, at + DOCK_TICKET_FIRST_AT);
}

static void add_entry(size_t at)
{
    if (!get(at + DOCK_ENTRY_LIVE_AT))
        return;
    add_line(5, get(at + DOCK_ENTRY_NAME_AT), get(at + DOCK_ENTRY_NAME_AT + DOCK_NAME_PROGRAM_AT),
             get(at + DOCK_ENTRY_NAME_AT + DOCK_NAME_NUMBER_AT));
    add_numbers(5, at + DOCK_ENTRY_PARENT_AT);
    add_numbers(8, at + DOCK_ENTRY_FIRST_AT);
}

static int by_place(const void *one, const void *two)
{
    const unsigned *a = one, *b = two;
    unsigned i = 0;
    while (i < 3 && a[i] == b[i])
        i++;
    return (a[i] > b[i]) - (a[i] < b[i]);
}

/* What a saved text of the image says, in order or not. */
static void make_text(void)
{
    char *end = made_text;
    struct who who;
    unsigned place, i, column;

    line_count = 0;
    for (who.pad = 0; who.pad < DOCK_PADS; who.pad++)
        for (who.program = 0; who.program < DOCK_PROGRAMS; who.program++) {
            add_line(0, who.pad, who.program, get(last_at(who)));
            for (place = 0; place < DOCK_PLACES; place++)
                add_ticket(who, place_at(who, place));
        }
    for (place = 0; place < DOCK_ENTRIES; place++)
        add_entry(entry_place_at(place));
    qsort(lines, line_count, sizeof lines[0], by_place);
    end += sprintf(end, "kind pad program number own opad oprogram onumber first count rights\n");
    for (i = 0; i < line_count; i++)
        for (column = 0; column < COLUMNS; column++)
            end += sprintf(end, "%u%c", lines[i][column], column + 1 < COLUMNS ? ' ' : '\n');
    made_length = (size_t)(end - made_text);
}

/* Docks that were reached or made, for the damaged ones further down. */
static struct dock bases[16];
static unsigned base_count;

/* The functions that test the order, on this dock, and which result that has. */
static void measure_order(const char *name, unsigned wanted)
{
    printf("%s:\n", name);
    if (base_count == sizeof bases / sizeof bases[0])
        exit(2);
    bases[base_count++] = dock;
    memset(&request, 0, sizeof request); /* refused: the dock stays as it is */
    measure("  dock_in_order", order, wanted);
    measure("  dock_check", check, wanted);
    measure("  dock_serve", serve, wanted);
    if (wanted != DOCK_ACCEPTED)
        measure("  dock_step", step, wanted);
    measure("  dock_save, no room", save_without_room, wanted == DOCK_ACCEPTED ? DOCK_TOO_SHORT : wanted);
    measure("  dock_save", save, wanted);
    make_text();
    if (wanted == DOCK_ACCEPTED && (saved_length != made_length || memcmp(output, made_text, made_length) != 0)) {
        fprintf(stderr, "stack: %s: another text than the tables'\n", name);
        exit(1);
    }
    measure("  dock_load", load, wanted);
    made_length--;
    measure("  dock_load, cut", load, DOCK_BAD_TEXT);
    measure_into(&most_of_reports, "  dock_report, no room", report_without_room, wanted == DOCK_ACCEPTED ? DOCK_TOO_SHORT : wanted);
    measure_into(&most_of_reports, "  dock_report", report, wanted);
    measure_into(&most_of_traces, "  dock_trace, no room", trace_without_room, wanted == DOCK_ACCEPTED ? DOCK_TOO_SHORT : wanted);
    measure_into(&most_of_traces, "  dock_trace", trace, wanted);
}

/* The report of this dock has so many lines. */
static void has_lines(unsigned wanted)
{
    unsigned lines = 0;
    size_t i;

    report();
    for (i = 0; i < report_length; i++)
        lines += output[i] == '\n';
    if (lines != wanted) {
        fprintf(stderr, "stack: a report of %u lines, not %u\n", lines, wanted);
        exit(1);
    }
}

/* Chains of loans, made by requests. */

static const struct who root = {0, 0};

/* The program that has the n-th place of a walk through the programs of a pad, or, over all pads, through those of every pad in turn. */
static struct who walked(unsigned n, int over_pads)
{
    struct who who;
    who.pad = (uint16_t)(over_pads ? n % DOCK_PADS : 0);
    who.program = (uint16_t)((over_pads ? n / DOCK_PADS : n) % DOCK_PROGRAMS);
    return who;
}

enum way { ON_A_PAD, OVER_PADS, AGAINST_PLACES, OFF_THE_PAD, WAYS };
static const char *const way_names[WAYS] = {"loans on a pad", "loans over pads", "loans over pads, each in a lower place of the dock",
                                            "a loan on a pad, lent on over pads"};

/* As many loans as the places allow: each takes two, the recall's and the grant's. */
enum { LOANS_ON_A_PAD = DOCK_PROGRAMS * DOCK_PLACES / 2 - 1, LOANS = DOCK_ENTRIES / 2 - 1 };

/* Who has the n-th grant of a chain. Off the pad, the walk first goes to the next program of its pad; what it left out for that comes last. */
static struct who holder(enum way way, unsigned n)
{
    if (way == OFF_THE_PAD && n > 0)
        n = (n + DOCK_PADS - 2) % LOANS + 1;
    return walked(n, way != ON_A_PAD);
}

/* The root's recall of its first loan, and a read of the last borrower's. */
static struct dock_request recall_all, read_last;

static struct dock_request by(struct who who, uint16_t op, uint16_t ticket)
{
    struct dock_request r = {.pad = who.pad, .program = who.program, .op = op, .ticket = ticket};
    return r;
}

static void take_one(struct who who)
{
    struct dock_request take = by(who, DOCK_TAKE, 0);
    take.count = 1;
    take.rights = ALL;
    ask("take", take, DOCK_ACCEPTED);
}

static void pass_on(struct who from, uint16_t ticket, struct who to)
{
    struct dock_request pass = by(from, DOCK_PASS, ticket);
    pass.topad = to.pad;
    pass.toprogram = to.program;
    pass.count = 1;
    pass.rights = ALL;
    ask("pass", pass, DOCK_ACCEPTED);
}

/*
 * From an emptied dock, a chain of loans of one sheet, each of what the last one lent. For each to have a lower place in the dock than
 * the one before, as many grants are taken first, and given back one by one, the newest first.
 */
static void lend_on(enum way way)
{
    static uint16_t kept[LOANS];
    unsigned loans = way == ON_A_PAD ? LOANS_ON_A_PAD : LOANS, i;
    uint16_t ticket;

    empty();
    for (i = loans; way == AGAINST_PLACES && i-- > 0;) {
        take_one(holder(way, i));
        kept[i] = answer.ticket;
    }
    take_one(root);
    root_ticket = ticket = answer.ticket;
    root_sheet = (uint16_t)(way == AGAINST_PLACES ? loans : 0);
    for (i = 0; i < loans; i++) {
        if (way == AGAINST_PLACES)
            ask("give back", by(holder(way, i), DOCK_GIVE_BACK, kept[i]), DOCK_ACCEPTED);
        pass_on(holder(way, i), ticket, holder(way, i + 1));
        ticket = answer.recipient;
        if (i == 0)
            recall_all = by(root, DOCK_RECALL, answer.ticket);
    }
    read_last = by(holder(way, loans), DOCK_READ, ticket);
}

static void use_chains(void)
{
    int way;

    for (way = 0; way < WAYS; way++) {
        lend_on((enum way)way);
        measure_order(way_names[way], DOCK_ACCEPTED);
        has_lines(2 + 1 + (way == ON_A_PAD ? LOANS_ON_A_PAD : LOANS)); /* the names, the root, the loans, the sheets */
        ask("read", read_last, DOCK_ACCEPTED);
        ask("recall of all loans", recall_all, DOCK_ACCEPTED);
        ask("use of a recalled loan", read_last, way == ON_A_PAD ? DOCK_NO_TICKET : DOCK_NO_ENTRY);
        lend_on((enum way)way);
        read_last.op = DOCK_WRITE;
        ask("write", read_last, DOCK_ACCEPTED);
        ask("give back of all that was lent", by(root, DOCK_GIVE_BACK, root_ticket), DOCK_ACCEPTED);
    }
}

/* A taken grant in every place. */
static void use_taken_grants(void)
{
    unsigned i;

    empty();
    for (i = 0; i < DOCK_ENTRIES; i++)
        take_one(walked(i, 1));
    root_ticket = 1;
    root_sheet = 0;
    measure_order("a taken grant in every place", DOCK_ACCEPTED);
    has_lines(2 + DOCK_ENTRIES);
}

/* The tickets of a program, as the image has them. */
static unsigned tickets_of(struct who who)
{
    unsigned place, live = 0;
    for (place = 0; place < DOCK_PLACES; place++)
        live += get(place_at(who, place) + DOCK_TICKET_KIND_AT) != DOCK_KIND_FREE;
    return live;
}

/* A program with a free place, neither of the root's pad nor of this one, from the n-th on; 0 where there is none. */
static int borrower(struct who *found, uint16_t not_on, unsigned n)
{
    unsigned end = n + DOCK_PADS * DOCK_PROGRAMS;
    for (; n < end; n++) {
        *found = walked(n, 1);
        if (found->pad != root.pad && found->pad != not_on && tickets_of(*found) < DOCK_PLACES)
            return 1;
    }
    return 0;
}

/* The loans to other pads, as reads of each. */
static struct dock_request lent[DOCK_ENTRIES];
static unsigned lent_count;

/* Lends to other pads as long as there are places, to the n-th program first. */
static void lend_off(struct who from, uint16_t ticket, unsigned n)
{
    struct who to;
    while (tickets_of(from) < DOCK_PLACES && borrower(&to, from.pad, n++)) {
        pass_on(from, ticket, to);
        lent[lent_count++] = by(to, DOCK_READ, answer.recipient);
    }
}

/* From an emptied dock, a loan that goes round the programs of the root's pad, to the root too; each borrower's ticket. */
static void lend_round(uint16_t tickets[DOCK_PROGRAMS])
{
    struct who from = root, to;
    unsigned i;

    empty();
    take_one(root);
    root_ticket = answer.ticket;
    root_sheet = 0;
    for (i = 0; i < DOCK_PROGRAMS; i++, from = to) {
        to = walked(i + 1, 0);
        pass_on(from, i == 0 ? root_ticket : answer.recipient, to);
        tickets[to.program] = answer.recipient;
        if (i == 0)
            recall_all = by(root, DOCK_RECALL, answer.ticket);
    }
}

/* Loans to other pads from every borrower on a pad, and on from pad to pad, as many as there are places: one recall on the pad ends all. */
static void use_loans_off_the_pad(void)
{
    uint16_t tickets[DOCK_PROGRAMS];
    struct who from = root;
    unsigned off, i;

    lend_round(tickets);
    for (; from.program < DOCK_PROGRAMS; from.program++)
        lend_off(from, tickets[from.program], lent_count);
    off = lent_count;
    for (i = 0; i < lent_count; i++) {
        from.pad = lent[i].pad;
        from.program = lent[i].program;
        lend_off(from, lent[i].ticket, i);
    }
    printf("%u loans off the pad, lent on %u times\n", off, lent_count - off);
    measure_order("loans off the pad at every depth", DOCK_ACCEPTED);
    ask("recall of all loans", recall_all, DOCK_ACCEPTED);
    for (i = 0; i < lent_count; i++)
        ask("use of a recalled loan", lent[i], DOCK_NO_ENTRY);
}

/* A loan to another pad that is lent on there, recalled: the last borrower's next write drops the whole chain. */
static void use_stale_chain(void)
{
    struct who from = {1, 0}, to;
    struct dock_request write;
    unsigned i;

    empty();
    take_one(root);
    pass_on(root, answer.ticket, from);
    recall_all = by(root, DOCK_RECALL, answer.ticket);
    for (i = 0; i < LOANS_ON_A_PAD; i++) {
        to = from;
        to.program = (uint16_t)((i + 1) % DOCK_PROGRAMS);
        pass_on(from, answer.recipient, to);
        from = to;
    }
    write = by(from, DOCK_WRITE, answer.recipient);
    ask("recall", recall_all, DOCK_ACCEPTED);
    ask("write of a chain without an entry", write, DOCK_NO_ENTRY);
    ask("write of a dropped chain", write, DOCK_NO_TICKET);
}

/* Images that a host made: every place of a pad, or of all, is a link of one chain. */

static struct name link_name(unsigned n, int over_pads)
{
    struct who who = walked(n, over_pads);
    struct name name = {who.pad, who.program, 1 + n / (DOCK_PROGRAMS * (over_pads ? DOCK_PADS : 1))};
    return name;
}

static void put_grant(struct name name, unsigned kind, struct name parent, struct name at_dock)
{
    struct who who = {(uint16_t)name.pad, (uint16_t)name.program};
    size_t at = place_at(who, name.number - 1);

    put(at + DOCK_TICKET_KIND_AT, kind);
    put(at + DOCK_TICKET_NUMBER_AT, name.number);
    put_name(at + DOCK_TICKET_OTHER_AT, parent);
    put(at + DOCK_TICKET_FIRST_AT, 0);
    put(at + DOCK_TICKET_COUNT_AT, 1);
    put(at + DOCK_TICKET_RIGHTS_AT, ALL);
    put_name(at + DOCK_TICKET_DOCK_AT, at_dock);
    put(last_at(who), name.number);
}

static void put_entry(unsigned place, struct name name, struct name parent)
{
    size_t at = entry_place_at(place);

    put(at + DOCK_ENTRY_LIVE_AT, 1);
    put_name(at + DOCK_ENTRY_NAME_AT, name);
    put_name(at + DOCK_ENTRY_PARENT_AT, parent);
    put(at + DOCK_ENTRY_FIRST_AT, 0);
    put(at + DOCK_ENTRY_COUNT_AT, 1);
    put(at + DOCK_ENTRY_RIGHTS_AT, ALL);
}

static const struct name the_store = {0, 0, 0};

/* A taken grant and children under it, each of the last one; or, as a ring, children alone. None has a recall. */
static void make_children(int ring)
{
    enum { LINKS = DOCK_PROGRAMS * DOCK_PLACES };
    const struct name head = link_name(0, 0);
    unsigned n;

    empty();
    for (n = 0; n < LINKS; n++)
        put_grant(link_name(n, 0), DOCK_KIND_CHILD, link_name((n + LINKS - 1) % LINKS, 0), head);
    if (!ring) {
        put_grant(head, DOCK_KIND_TAKEN, the_store, head);
        put(last_at(root), DOCK_PLACES);
        put_entry(0, head, the_store);
    }
}

/* A taken grant and received ones, whose entries are a chain, or a ring; the first link has the first place, or the last. */
static void make_entries(int ring, int backwards)
{
    unsigned n;

    empty();
    for (n = 0; n < DOCK_ENTRIES; n++) {
        struct name name = link_name(n, 1), parent = link_name((n + DOCK_ENTRIES - 1) % DOCK_ENTRIES, 1);
        int head = n == 0 && !ring;

        put_grant(name, head ? DOCK_KIND_TAKEN : DOCK_KIND_RECEIVED, the_store, name);
        put_entry(backwards ? DOCK_ENTRIES - 1 - n : n, name, head ? the_store : parent);
    }
}

/* In a program's last place a recall of this target, under its first grant. */
static void put_recall(struct who who, struct name target)
{
    size_t at = place_at(who, DOCK_PLACES - 1);

    put(at + DOCK_TICKET_KIND_AT, DOCK_KIND_RECALL);
    put(at + DOCK_TICKET_NUMBER_AT, DOCK_PLACES);
    put(at + DOCK_TICKET_OWN_AT, 1);
    put_name(at + DOCK_TICKET_OTHER_AT, target);
    put(last_at(who), DOCK_PLACES);
}

/* In order but for a child on pad 1 that a recall of pad 0 names. */
static void make_far_child(void)
{
    const struct name parent = {1, 0, 1}, child = {1, 1, DOCK_PLACES};
    const struct who nurse = {1, 0};

    empty();
    take_one(root);
    pass_on(root, answer.ticket, nurse);
    put_grant(child, DOCK_KIND_CHILD, parent, parent);
    put_recall(root, child);
}

static void use_made_images(void)
{
    int backwards;

    root_ticket = 1;
    root_sheet = 0;
    make_children(1);
    measure_order("a ring of 64 children", DOCK_NOT_IN_ORDER);
    make_children(0);
    measure_order("a chain of 63 children, without recalls", DOCK_NOT_IN_ORDER);
    make_far_child();
    measure_order("a recall of another pad's child", DOCK_NOT_IN_ORDER);
    for (backwards = 0; backwards <= 1; backwards++) {
        make_entries(1, backwards);
        measure_order("a ring of 256 entries", DOCK_NOT_IN_ORDER);
        make_entries(0, backwards);
        measure_order("a chain of 256 entries, without recalls", DOCK_NOT_IN_ORDER);
    }
}

/* Damaged images: each of those above with some words changed, and images of random fields. All in one measured call. */

enum { IMAGES = 6000 };
static unsigned in_order, not_in_order;

static unsigned below(unsigned limit)
{
    static uint32_t seed = 1;
    seed = seed * 1664525u + 1013904223u;
    return (seed >> 8) % limit;
}

static void damage(void)
{
    unsigned words = below(6);

    dock = bases[below(base_count)];
    while (words-- > 0) {
        size_t at = 2 * (size_t)below(DOCK_TABLES / 2);
        unsigned number[] = {below(9), below(65536), get(2 * (size_t)below(DOCK_TABLES / 2))};
        put(at, number[below(3)]);
    }
}

static void randomize(void)
{
    size_t at;
    unsigned place;

    for (at = 0; at < DOCK_TABLES; at += 2)
        put(at, below(DOCK_PROGRAMS + 1));
    for (place = 0; place < DOCK_PADS * DOCK_PROGRAMS * DOCK_PLACES; place++)
        put(place_at(walked(place, 1), place / (DOCK_PADS * DOCK_PROGRAMS)) + DOCK_TICKET_KIND_AT, below(DOCK_KIND_RECALL + 1));
    for (place = 0; place < DOCK_ENTRIES; place++)
        put(entry_place_at(place) + DOCK_ENTRY_LIVE_AT, below(2));
}

static void another_image(unsigned i)
{
    if (i % 8 == 0)
        randomize();
    else
        damage();
}

static void use_damaged_images(void)
{
    unsigned i;

    for (i = 0; i < IMAGES; i++) {
        another_image(i);
        order();
        *(result == DOCK_ACCEPTED ? &in_order : &not_in_order) += 1;
        check();
        request = by(walked(below(32), 1), (uint16_t)(DOCK_RECALL + below(4)), (uint16_t)(1 + below(DOCK_PLACES)));
        serve();
        step();
    }
    result = DOCK_ACCEPTED;
}

static unsigned loaded[DOCK_BAD_TEXT + 1];

/* Saves them and loads their texts, some of which are cut. */
static void save_damaged_images(void)
{
    unsigned i;

    for (i = 0; i < IMAGES; i++) {
        another_image(i);
        save();
        save_without_room();
        make_text();
        if (i % 16 == 1)
            made_length = below((unsigned)made_length + 1);
        load();
        loaded[result]++;
    }
    result = DOCK_ACCEPTED;
}

static void report_damaged_images(void)
{
    unsigned i;

    for (i = 0; i < IMAGES / 4; i++) {
        another_image(i);
        report();
        report_without_room();
    }
    result = DOCK_ACCEPTED;
}

int main(void)
{
    tables = dock.tables;
    thread_alone = depth(nothing);
    measure("dock_empty", empty, DOCK_ACCEPTED);
    use_chains();
    use_taken_grants();
    use_loans_off_the_pad();
    use_stale_chain();
    use_made_images();
    measure("damaged images", use_damaged_images, DOCK_ACCEPTED);
    measure("damaged images and texts", save_damaged_images, DOCK_ACCEPTED);
    measure_into(&most_of_reports, "reports of damaged images", report_damaged_images, DOCK_ACCEPTED);
    if (in_order < IMAGES / 20 || not_in_order < IMAGES / 2) {
        fprintf(stderr, "stack: %u images in order and %u not: too few of one sort\n", in_order, not_in_order);
        return 1;
    }
    if (loaded[DOCK_ACCEPTED] < IMAGES / 20 || loaded[DOCK_NOT_IN_ORDER] < IMAGES / 20 || loaded[DOCK_BAD_TEXT] < IMAGES / 20) {
        fprintf(stderr, "stack: %u texts loaded, %u and %u refused: too few of one sort\n", loaded[DOCK_ACCEPTED], loaded[DOCK_NOT_IN_ORDER],
                loaded[DOCK_BAD_TEXT]);
        return 1;
    }
    printf("stack: at most %zu bytes, dock_report %zu, dock_trace %zu; %u images not in order among those tried\n", most, most_of_reports,
           most_of_traces, not_in_order);
    return most <= DOCK_STACK && most_of_reports <= DOCK_REPORT_STACK && most_of_traces <= DOCK_TRACE_STACK ? 0 : 1;
}
