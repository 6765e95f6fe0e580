/* The image of the tables, read and written by the header's offsets, for the tests that look into it. */
#include "dock.h"

/* The image that all below is about. */
static uint8_t *tables;

struct who {
    uint16_t pad, program;
};

struct name {
    unsigned pad, program, number;
};

static inline unsigned get(size_t at)
{
    return tables[at] + 256u * tables[at + 1];
}

static inline void put(size_t at, unsigned number)
{
    tables[at] = (uint8_t)(number % 256);
    tables[at + 1] = (uint8_t)(number / 256);
}

static inline void put_name(size_t at, struct name name)
{
    put(at + DOCK_NAME_PAD_AT, name.pad);
    put(at + DOCK_NAME_PROGRAM_AT, name.program);
    put(at + DOCK_NAME_NUMBER_AT, name.number);
}

static inline int is_name(size_t at, struct name name)
{
    return get(at + DOCK_NAME_PAD_AT) == name.pad && get(at + DOCK_NAME_PROGRAM_AT) == name.program &&
           get(at + DOCK_NAME_NUMBER_AT) == name.number;
}

static inline size_t program_at(struct who who)
{
    return (size_t)DOCK_PROGRAM_SIZE * (DOCK_PROGRAMS * (size_t)who.pad + who.program);
}

static inline size_t last_at(struct who who)
{
    return program_at(who) + DOCK_LAST_AT;
}

static inline size_t place_at(struct who who, unsigned place)
{
    return program_at(who) + (size_t)DOCK_TICKET_SIZE * place;
}

static inline size_t entry_place_at(unsigned place)
{
    return DOCK_ENTRIES_AT + (size_t)DOCK_ENTRY_SIZE * place;
}
