/* The rows of two tables: rows.h says what they are. */
#include "rows.h"

#include <inttypes.h>
#include <stdarg.h>
#include <stdio.h>
#include <string.h>

#include "numbers.h"
#include "second.h"

enum { CELL_MOST = 256 };

/* A text that is written piece by piece. */
typedef struct {
    char text[CELL_MOST];
    size_t length;
} cell;

static void say(cell *to, const char *form, ...)
{
    va_list values;

    va_start(values, form);
    to->length += (size_t)vsnprintf(to->text + to->length, CELL_MOST - to->length, form, values);
    va_end(values);
}

/* ---- What the cells say ------------------------------------------------ */

/* A row's cell, of task or hub `number` in this table. */
typedef void telling(cell *to, const uint32_t *table, uint32_t number);

static uint32_t task_field(const uint32_t *table, uint32_t task, size_t field)
{
    return table[field_place(table, task, field)];
}

static uint32_t hub_field(const uint32_t *table, uint32_t hub, size_t field)
{
    return table[hub_place(table, hub) + field];
}

static void say_message(cell *to, uint64_t message)
{
    say(to, "%" PRIu32, (uint32_t)message);
    if (message >> 32 != 0)
        say(to, " high %" PRIu32, (uint32_t)(message >> 32));
}

static void say_left(cell *to, uint32_t ticks)
{
    say(to, ticks == 1 ? ", 1 tick left" : ", %" PRIu32 " ticks left", ticks);
}

static void tell_contents(cell *to, const uint32_t *table, uint32_t number)
{
    (void)number;
    say(to, "edition %" PRIu32 ", tasks: %" PRIu32 ", hubs: %" PRIu32, table[EDITION_AT],
        table[TASKS_IN_USE_AT], table[HUBS_IN_USE_AT]);
}

/* The entries of the list that starts there; `runs` is the number plus 1 of the task behind
 * which that is said, 0 none. */
static void say_list(cell *to, const uint32_t *list, uint32_t runs)
{
    if (list[0] == 0)
        say(to, "nobody");
    for (size_t i = 0; i < LIST_WORDS && list[i] != 0; i++)
        say(to, "%stask %" PRIu32 "%s", i == 0 ? "" : ", ", list[i] - 1,
            list[i] == runs ? " (runs)" : "");
}

static void tell_ready(cell *to, const uint32_t *table, uint32_t number)
{
    const uint32_t *list = table + ready_place(table);
    uint32_t runs = 0;

    (void)number;
    for (size_t i = LIST_WORDS; i-- > 0;)
        if (list[i] != 0 && !task_field(table, list[i] - 1, T_SUSPENDED))
            runs = list[i];
    say_list(to, list, runs);
}

static void tell_state(cell *to, const uint32_t *table, uint32_t task)
{
    uint32_t state = task_field(table, task, T_STATE), ticks = task_field(table, task, T_TICKS);

    if (state == INACTIVE)
        say(to, "inactive");
    if (state == READY)
        say(to, "ready");
    if (state == WAITING) {
        say(to, "waits at hub %" PRIu32 " to %s", task_field(table, task, T_HUB) - 1,
            task_field(table, task, T_SIDE) == PUT ? "put" : "get");
        if (ticks == 0)
            say(to, ", no limit");
        else
            say_left(to, ticks);
    }
    if (state == SLEEPING) {
        say(to, "sleeps");
        say_left(to, ticks);
    }
    if (task_field(table, task, T_SUSPENDED))
        say(to, ", suspended");
}

/* M-108: a task that waits for a Resource lends its owner its priority, and what others lend it
 * in turn: lent on, by each task's record, until nothing changes. */
static uint32_t effective_priority(const uint32_t *table, uint32_t task)
{
    uint32_t lent[TASKS], changed = 1;

    for (uint32_t i = 0; i < table[TASKS_IN_USE_AT]; i++)
        lent[i] = task_field(table, i, T_PRIORITY);
    while (changed) {
        changed = 0;
        for (uint32_t i = 0; i < table[TASKS_IN_USE_AT]; i++) {
            if (task_field(table, i, T_STATE) != WAITING)
                continue;
            uint32_t hub = task_field(table, i, T_HUB) - 1, owner = hub_field(table, hub, H_COUNT);
            if (hub_field(table, hub, H_KIND) != RESOURCE || owner == 0 || lent[owner - 1] <= lent[i])
                continue;
            lent[owner - 1] = lent[i];
            changed = 1;
        }
    }
    return lent[task];
}

static void tell_priority(cell *to, const uint32_t *table, uint32_t task)
{
    uint32_t own = task_field(table, task, T_PRIORITY), lent = effective_priority(table, task);

    say(to, "%" PRIu32, own);
    if (lent != own)
        say(to, ", effective %" PRIu32, lent);
}

static void tell_answer(cell *to, const uint32_t *table, uint32_t task)
{
    static const char *const plain[] = {"none", "OK", "failed", "timed out"};
    uint32_t answer = task_field(table, task, T_ANSWER);
    uint64_t message = task_message(table, task);

    say(to, "%s", answer == OK && message != 0 ? "met" : plain[answer]);
    if (message != 0) {
        say(to, ", word ");
        say_message(to, message);
    }
}

static void tell_kind(cell *to, const uint32_t *table, uint32_t hub)
{
    static const char *const kinds[] = {"", "Event", "Semaphore", "Port", "FIFO", "Resource",
                                        "Board", "Memory"};
    uint32_t kind = hub_field(table, hub, H_KIND);

    say(to, "%s", kinds[kind]);
    if (kind == SEMAPHORE || kind == FIFO || kind == MEMORY)
        say(to, ", limit %" PRIu32, hub_field(table, hub, H_LIMIT));
    if (kind == SEMAPHORE)
        say(to, ", start %" PRIu32, hub_field(table, hub, H_START));
}

static void say_held(cell *to, const uint32_t *table, uint32_t hub, uint32_t count)
{
    if (count == 0)
        say(to, "empty");
    for (uint32_t i = 0; i < count; i++) {
        say(to, i == 0 ? "" : ", ");
        say_message(to, message_at(table, held_place(table, hub, i)));
    }
}

/* Which blocks are out: their marks aren't 0. */
static void say_blocks(cell *to, const uint32_t *table, uint32_t hub)
{
    uint32_t limit = hub_field(table, hub, H_LIMIT), out = 0;

    for (uint32_t block = 0; block < limit; block++) {
        if (message_at(table, held_place(table, hub, block)) == 0)
            continue;
        say(to, out++ == 0 ? "blocks out: %" PRIu32 : ", %" PRIu32, block);
    }
    if (out == 0)
        say(to, "no block out");
}

static void tell_holds(cell *to, const uint32_t *table, uint32_t hub)
{
    uint32_t count = hub_field(table, hub, H_COUNT);

    switch (hub_field(table, hub, H_KIND)) {
    case EVENT:
        say(to, count == 0 ? "not set" : "set");
        break;
    case SEMAPHORE:
        say(to, "count %" PRIu32, count);
        break;
    case PORT:
        say(to, "nothing");
        break;
    case FIFO:
        say_held(to, table, hub, count);
        break;
    case RESOURCE:
        if (count == 0)
            say(to, "free");
        else
            say(to, "owner: task %" PRIu32, count - 1);
        break;
    case BOARD:
        say(to, count == 0 ? "not written" : "written: ");
        if (count != 0)
            say_message(to, message_at(table, store_place(table, hub)));
        break;
    case MEMORY:
        say_blocks(to, table, hub);
        break;
    }
}

static void tell_waiting(cell *to, const uint32_t *table, uint32_t hub)
{
    say_list(to, table + list_place(table, hub), 0);
}

/* ---- Which words a row covers ------------------------------------------ */

/* Whether a word that the row covers differs; the editions are the same. */
typedef int differing(const uint32_t *one, const uint32_t *other, uint32_t number);

static int differs(const uint32_t *one, const uint32_t *other, size_t place, size_t words)
{
    return memcmp(one + place, other + place, words * sizeof *one) != 0;
}

static int task_differs(const uint32_t *one, const uint32_t *other, uint32_t task, size_t field)
{
    return differs(one, other, field_place(one, task, field), 1);
}

static int contents_differ(const uint32_t *one, const uint32_t *other, uint32_t number)
{
    return (void)number, differs(one, other, 0, TASKS_AT);
}

static int ready_differs(const uint32_t *one, const uint32_t *other, uint32_t number)
{
    return (void)number, differs(one, other, ready_place(one), LIST_WORDS);
}

static int state_differs(const uint32_t *one, const uint32_t *other, uint32_t task)
{
    return task_differs(one, other, task, T_STATE) ||
           task_differs(one, other, task, T_SUSPENDED) || task_differs(one, other, task, T_HUB) ||
           task_differs(one, other, task, T_TICKS) || task_differs(one, other, task, T_SIDE);
}

static int priority_differs(const uint32_t *one, const uint32_t *other, uint32_t task)
{
    return task_differs(one, other, task, T_PRIORITY);
}

static int answer_differs(const uint32_t *one, const uint32_t *other, uint32_t task)
{
    return task_message(one, task) != task_message(other, task) ||
           task_differs(one, other, task, T_ANSWER);
}

static int kind_differs(const uint32_t *one, const uint32_t *other, uint32_t hub)
{
    return differs(one, other, hub_place(one, hub) + H_KIND, 1) ||
           differs(one, other, hub_place(one, hub) + H_LIMIT, 1) ||
           differs(one, other, hub_place(one, hub) + H_START, 1);
}

static int holds_differ(const uint32_t *one, const uint32_t *other, uint32_t hub)
{
    return differs(one, other, hub_place(one, hub) + H_COUNT, 1) ||
           differs(one, other, store_place(one, hub),
                   (size_t)HELD_MOST * layout_of(one)->message_words);
}

static int waiting_differs(const uint32_t *one, const uint32_t *other, uint32_t hub)
{
    return differs(one, other, list_place(one, hub), LIST_WORDS);
}

/* ---- The rows ---------------------------------------------------------- */

typedef struct {
    const char *what;
    telling *tell;
    differing *differ;
} row;

static const row table_rows[] = {{"contents", tell_contents, contents_differ},
                                 {"ready list", tell_ready, ready_differs},
                                 {NULL, NULL, NULL}};
static const row task_rows[] = {{"state", tell_state, state_differs},
                                {"priority", tell_priority, priority_differs},
                                {"answer", tell_answer, answer_differs},
                                {NULL, NULL, NULL}};
static const row hub_rows[] = {{"kind", tell_kind, kind_differs},
                               {"holds", tell_holds, holds_differ},
                               {"waiting", tell_waiting, waiting_differs},
                               {NULL, NULL, NULL}};

typedef struct {
    const uint32_t *first, *second;
    char *text;
    size_t length;
    uint32_t marked;
} writing;

/* The rows of one subject. `in_first` and `in_second` tell whether the tables use it. */
static void write_rows(writing *to, const char *subject, const row *rows, uint32_t number,
                       int in_first, int in_second)
{
    for (; rows->what != NULL; rows++) {
        cell left = {{0}, 0}, right = {{0}, 0};

        if (in_first)
            rows->tell(&left, to->first, number);
        else
            say(&left, "not in use");
        if (in_second)
            rows->tell(&right, to->second, number);
        else
            say(&right, "not in use");
        int marked = rows->differ(to->first, to->second, number) ||
                     strcmp(left.text, right.text) != 0;
        to->marked += (uint32_t)marked;
        if (marked || in_first || in_second)
            to->length += (size_t)sprintf(to->text + to->length, "%c\t%s\t%s\t%s\t%s\n",
                                          marked ? '!' : '=', subject, rows->what, left.text,
                                          right.text);
    }
}

static void write_all(writing *to)
{
    char subject[16];

    write_rows(to, "table", table_rows, 0, 1, 1);
    for (uint32_t task = 0; task < TASKS; task++) {
        sprintf(subject, "task %" PRIu32, task);
        write_rows(to, subject, task_rows, task, task < to->first[TASKS_IN_USE_AT],
                   task < to->second[TASKS_IN_USE_AT]);
    }
    for (uint32_t hub = 0; hub < HUBS; hub++) {
        sprintf(subject, "hub %" PRIu32, hub);
        write_rows(to, subject, hub_rows, hub, hub < to->first[HUBS_IN_USE_AT],
                   hub < to->second[HUBS_IN_USE_AT]);
    }
}

static void words_of(uint32_t *words, const uint8_t *bytes, size_t length)
{
    memset(words, 0, length);
    for (size_t i = 0; i < length; i++)
        words[i / 4] |= (uint32_t)bytes[i] << 8 * (i % 4);
}

rows_reply rows_write(const uint8_t *first, size_t first_bytes, const uint8_t *second,
                      size_t second_bytes, uint8_t *text, size_t room)
{
    uint32_t places[ENTRY_WORDS * WORDS_MOST], one[WORDS_MOST], other[WORDS_MOST];
    char whole[ROWS_MOST];
    writing to = {one, other, whole, 0, 0};
    uint32_t refusal = second_compare_bytes(first, first_bytes, second, second_bytes, places,
                                            sizeof places / sizeof *places).refusal;

    if (refusal != ACCEPTED)
        return (rows_reply){refusal, 0, 0};
    words_of(one, first, first_bytes);
    words_of(other, second, second_bytes);
    write_all(&to);
    if (to.length > room)
        return (rows_reply){SHORT_BUFFER, 0, 0};
    memcpy(text, whole, to.length);
    return (rows_reply){ACCEPTED, (uint32_t)to.length, to.marked};
}
