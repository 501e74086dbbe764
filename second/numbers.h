/* The numbers of document 01, M-100, M-103 and M-105 to M-107, each once and with its name.
 * Nothing here computes anything but a place in the table and what stands there. Shared
 * by the second program, its generator and its tests; the drills and the constructed
 * cases of the tests write the same numbers out, and expect.c has places of its own, so
 * a slip here shows there. */
#ifndef NUMBERS_H
#define NUMBERS_H

#include <stddef.h>
#include <stdint.h>

/* The table: contents, then the bodies. WORDS and BYTES are edition 1's; edition 2 (M-105)
 * has task records of 9 words and stores of 16. */
enum { WORDS = 600, BYTES = 2400, WORDS_2 = 744, BYTES_2 = 2976 };
enum { WORDS_MOST = WORDS_2, BYTES_MOST = BYTES_2, TASKS = 16, HUBS = 16 };
enum { EDITION_AT = 0, TASKS_IN_USE_AT = 1, HUBS_IN_USE_AT = 2, STARTS_AT = 3, TASKS_AT = 8 };
enum { EDITION_1 = 1, EDITION_2 = 2, EDITIONS = 2 };
enum { HUB_WORDS = 4, LIST_WORDS = 16, HELD_MOST = 8 };

typedef struct {
    uint32_t edition, words, task_words, message_words;
    uint32_t hubs_at, ready_at, waiting_at, stores_at;
} layout;

static const layout layouts[EDITIONS] = {
    {EDITION_1, WORDS, 8, 1, 136, 200, 216, 472},
    {EDITION_2, WORDS_2, 9, 2, 152, 216, 232, 488},
};

/* Task record: the fields by name. The high word stands behind the low one in edition 2,
 * so the answer, which is last, has no place of its own: field_place has it. */
enum { T_STATE, T_SUSPENDED, T_PRIORITY, T_HUB, T_TICKS, T_SIDE, T_WORD, T_ANSWER, T_HIGH };
enum { INACTIVE = 1, READY = 2, WAITING = 3, SLEEPING = 4 };
enum { NO_SIDE = 0, PUT = 1, GET = 2, WIPE = 3 }; /* at a Board: update, read, wipe */
enum { NO_ANSWER = 0, OK = 1, FAIL = 2, TO = 3 };
enum { PRIORITY_MAX = 255, TICKS_MAX = 1000000 };

/* Hub record. */
enum { H_KIND, H_COUNT, H_LIMIT, H_START };
enum { EVENT = 1, SEMAPHORE = 2, PORT = 3, FIFO = 4, RESOURCE = 5, BOARD = 6, MEMORY = 7 };
enum { SEMAPHORE_MAX = 65535, FIFO_MAX = 8, BLOCKS_MAX = 8 };

/* A call. */
enum { C_SERVICE, C_CALLER, C_TARGET, C_SIDE, C_MODE, C_TICKS, C_WORD, C_HIGH, CALL_NUMBERS };
enum {
    BLANK, HUB_REQUEST, START, STOP, SUSPEND, RESUME, YIELD, SLEEP, TICK, ADD_TASK, ADD_HUB
};
enum { W = 1, NW = 2, WT = 3 };

/* Refusals; 10 to 12 are other requests'. */
enum {
    ACCEPTED, BAD_LENGTH, NOT_WELL_FORMED, NO_SUCH_SERVICE, NOT_RUNNING,
    NOT_IN_USE, BAD_ARGUMENT, TABLE_FULL, SHORT_BUFFER, HIGH_WORD,
    DIFFERING_EDITIONS = 13
};

/* An entry of a comparison: place, old word, new word. */
enum { E_PLACE, E_OLD, E_NEW, ENTRY_WORDS };

/* The edges in text: the numbers of a line and its bytes at most, the runner's table, and
 * the longest listing, which has 16 tasks of priority 100 and more, and 16 Semaphores whose
 * limit and start have five digits. */
enum { LINE_NUMBERS = 8, LINE_MAX_BYTES = 90, RUNNER_WORDS = WORDS_2, LISTING_MOST = 704 };

/* The layout that fits a length in words, or NULL; and that of a table whose edition fits
 * its length, as that of every well-formed one does. */
static inline const layout *layout_for(size_t words)
{
    return words == WORDS ? &layouts[0] : words == WORDS_2 ? &layouts[1] : NULL;
}

static inline const layout *layout_of(const uint32_t *table)
{
    return &layouts[table[EDITION_AT] == EDITION_2];
}

static inline size_t task_place(const uint32_t *table, uint32_t task)
{
    return TASKS_AT + (size_t)task * layout_of(table)->task_words;
}

static inline size_t hub_place(const uint32_t *table, uint32_t hub)
{
    return layout_of(table)->hubs_at + (size_t)hub * HUB_WORDS;
}

static inline size_t ready_place(const uint32_t *table) { return layout_of(table)->ready_at; }

static inline size_t list_place(const uint32_t *table, uint32_t hub)
{
    return layout_of(table)->waiting_at + (size_t)hub * LIST_WORDS;
}

/* The first message of a hub's store, and any. */
static inline size_t store_place(const uint32_t *table, uint32_t hub)
{
    return layout_of(table)->stores_at + (size_t)hub * HELD_MOST * layout_of(table)->message_words;
}

static inline size_t held_place(const uint32_t *table, uint32_t hub, uint32_t number)
{
    return store_place(table, hub) + (size_t)number * layout_of(table)->message_words;
}

/* A field of a task's record; a high word is in edition 2 alone. */
static inline size_t field_place(const uint32_t *table, uint32_t task, size_t field)
{
    size_t at = field == T_ANSWER ? layout_of(table)->task_words - 1
                : field == T_HIGH ? (size_t)T_WORD + 1
                                  : field;
    return task_place(table, task) + at;
}

/* The message whose low word stands there: one number, low + 2^32 * high. */
static inline uint64_t message_at(const uint32_t *table, size_t place)
{
    uint64_t high = layout_of(table)->message_words == 2 ? table[place + 1] : 0;
    return table[place] + (high << 32);
}

static inline uint64_t task_message(const uint32_t *table, uint32_t task)
{
    return message_at(table, task_place(table, task) + T_WORD);
}

#endif
