/* The hub kernel of document 01 with M-100, M-101 and M-103 to M-108, from the papers alone:
 * messages, effective priorities, well formed, lists, hubs, services, refusals, the listing,
 * the moves, the comparison, edges, in that order. The contract is second.h.
 *
 * Both editions run through the same rules: where a place depends on the edition, it is
 * asked of the table, and a message is one number of 64 bits, which edition 1 writes in
 * one word and edition 2 in two.
 *
 * Everything after refusal_of() relies on a well-formed table; that is why the
 * walks below have no bounds of their own: a list that a task joins has at
 * most 15 entries, and a task is where its record says. */
#include "second.h"

#include <string.h>

#include "numbers.h"

/* ---- Messages ---------------------------------------------------------- */

/* Two words a message: the table's edition is 2. */
static int is_wide(const uint32_t *table) { return table[EDITION_AT] == EDITION_2; }

/* The message at the place of its low word. */
static uint64_t message(const uint32_t *table, size_t place)
{
    return is_wide(table) ? table[place] | (uint64_t)table[place + 1] << 32 : table[place];
}

/* In edition 1 every message is below 2^32: refusal 6 sees to it. */
static void set_message(uint32_t *table, size_t place, uint64_t message)
{
    table[place] = (uint32_t)message;
    if (is_wide(table))
        table[place + 1] = (uint32_t)(message >> 32);
}

/* The message that a call brings. */
static uint64_t sent(const uint32_t *call)
{
    return call[C_WORD] | (uint64_t)call[C_HIGH] << 32;
}

/* Where a task's message stands, and in its record the answer, behind it. */
static size_t word_place(const uint32_t *table, uint32_t task)
{
    return task_place(table, task) + T_WORD;
}

static size_t answer_at(const uint32_t *table) { return is_wide(table) ? 8 : 7; }

/* The words of a hub's store. */
static size_t store_words(const uint32_t *table)
{
    return HELD_MOST * layout_of(table)->message_words;
}

/* ---- Effective priorities ---------------------------------------------- */

/* From own priorities makes effective ones (M-108): the smallest own priority among a task and
 * all that wait, directly or through others, for a Resource it owns. Whoever waits for a lock
 * hands its number on to the owner, and the owner in turn, until nobody has a smaller one to
 * hand on; numbers only fall, so a ring of locks ends too. Asked of a table in which all but
 * the order of the lists is right. */
static void hand_on(const uint32_t *table, uint32_t priority[TASKS])
{
    uint32_t owner[TASKS] = {0}; /* of the lock that the task waits for, plus 1 */
    int more = 0;

    for (uint32_t number = 0; number < table[HUBS_IN_USE_AT]; number++) {
        const uint32_t *hub = table + hub_place(table, number);
        const uint32_t *list = table + list_place(table, number);
        if (hub[H_KIND] != RESOURCE)
            continue;
        for (size_t i = 0; i < LIST_WORDS && list[i] != 0; i++)
            owner[list[i] - 1] = hub[H_COUNT], more = 1;
    }
    while (more) {
        more = 0;
        for (uint32_t task = 0; task < table[TASKS_IN_USE_AT]; task++)
            if (owner[task] != 0 && priority[task] < priority[owner[task] - 1]) {
                priority[owner[task] - 1] = priority[task];
                more = 1;
            }
    }
}

/* ---- Well formed ------------------------------------------------------- */

/* What one pass over the task records tells the walk of the hubs and lists: sets
 * of tasks, bit i for task i, and own priorities. The walk notes whether these fall along a
 * list, and whether a task waits for a lock. */
typedef struct {
    uint32_t inactive;
    uint32_t ready;
    uint32_t putters;
    uint32_t waiters[HUBS];
    uint32_t *priority;
    int falls, locks;
} census;

/* No early way out: the loop is short and the compiler makes it wide. */
static int all_zero(const uint32_t *word, size_t words)
{
    uint32_t any = 0;
    for (size_t i = 0; i < words; i++)
        any |= word[i];
    return any == 0;
}

/* The contents of an edition's blank table. */
static void write_contents(uint32_t contents[TASKS_AT], const layout *of)
{
    const uint32_t starts[] = {TASKS_AT, of->hubs_at, of->ready_at, of->waiting_at, of->stores_at};

    contents[EDITION_AT] = of->edition;
    contents[TASKS_IN_USE_AT] = contents[HUBS_IN_USE_AT] = 0;
    memcpy(contents + STARTS_AT, starts, sizeof starts);
}

/* The edition is the one that fits the length. */
static int contents_clause(const uint32_t *table, const layout *of)
{
    uint32_t right[TASKS_AT];

    write_contents(right, of);
    if (table[EDITION_AT] != of->edition || table[TASKS_IN_USE_AT] > TASKS ||
        table[HUBS_IN_USE_AT] > HUBS)
        return SECOND_CONTENTS;
    return memcmp(table + STARTS_AT, right + STARTS_AT, 5 * sizeof *table) == 0 ? SECOND_RIGHT
                                                                               : SECOND_CONTENTS;
}

static int unused_clause(const uint32_t *table)
{
    uint32_t tasks = table[TASKS_IN_USE_AT], hubs = table[HUBS_IN_USE_AT];
    size_t task_words = layout_of(table)->task_words;
    int zero = all_zero(table + task_place(table, tasks), (TASKS - tasks) * task_words) &&
               all_zero(table + hub_place(table, hubs), (HUBS - hubs) * HUB_WORDS) &&
               all_zero(table + list_place(table, hubs), (HUBS - hubs) * LIST_WORDS) &&
               all_zero(table + store_place(table, hubs), (HUBS - hubs) * store_words(table));
    return zero ? SECOND_RIGHT : SECOND_UNUSED;
}

/* Where a waiting put keeps its word; and where a store holds as many as the count. */
static int carries_words(uint32_t kind) { return kind == PORT || kind == FIFO; }
static int holds_words(uint32_t kind) { return kind == FIFO || kind == BOARD; }

static int waiting_right(const uint32_t *table, const uint32_t *task, uint64_t word)
{
    uint32_t hub = task[T_HUB] - 1; /* hub 0 becomes a number no hub has */
    if (hub >= table[HUBS_IN_USE_AT] || task[T_TICKS] > TICKS_MAX ||
        task[answer_at(table)] != NO_ANSWER)
        return 0;
    if (task[T_SIDE] == GET)
        return word == 0;
    return task[T_SIDE] == PUT &&
           (word == 0 || carries_words(table[hub_place(table, hub) + H_KIND]));
}

/* Tests the record of a task in use and enters the task in the census. */
static int task_clause(const uint32_t *table, uint32_t number, census *seen)
{
    const uint32_t *task = table + task_place(table, number);
    uint32_t bit = UINT32_C(1) << number, answer = task[answer_at(table)];
    uint64_t word = message(table, word_place(table, number));

    if (task[T_SUSPENDED] > 1 || task[T_PRIORITY] > PRIORITY_MAX)
        return SECOND_TASK_RANGE;
    seen->priority[number] = task[T_PRIORITY];
    switch (task[T_STATE]) {
    case INACTIVE:
        if ((task[T_SUSPENDED] | task[T_HUB] | task[T_TICKS] | task[T_SIDE] | word | answer) != 0)
            return SECOND_INACTIVE;
        seen->inactive |= bit;
        return SECOND_RIGHT;
    case READY:
        if ((task[T_HUB] | task[T_TICKS] | task[T_SIDE]) != 0 || answer > TO ||
            (word != 0 && answer != OK))
            return SECOND_READY;
        seen->ready |= bit;
        return SECOND_RIGHT;
    case WAITING:
        if (!waiting_right(table, task, word))
            return SECOND_WAITING;
        seen->waiters[task[T_HUB] - 1] |= bit;
        seen->putters |= task[T_SIDE] == PUT ? bit : 0;
        return SECOND_RIGHT;
    case SLEEPING:
        if ((task[T_HUB] | task[T_SIDE] | word | answer) != 0 ||
            task[T_TICKS] < 1 || task[T_TICKS] > TICKS_MAX)
            return SECOND_SLEEPING;
        return SECOND_RIGHT;
    default:
        return SECOND_TASK_RANGE;
    }
}

/* The list has exactly these members, each once, then zeros. Each entry
 * strikes its task off the members still to come, so the walk is as long as the set and
 * needs no count. Whether own priority numbers fall is noted on the way. */
static int list_clause(const uint32_t *list, uint32_t members, int wrong, census *seen)
{
    uint32_t priority = 0, falls = 0;
    size_t length = 0;

    if (members == 0)
        return all_zero(list, LIST_WORDS) ? SECOND_RIGHT : wrong;
    while (members != 0) {
        uint32_t task = list[length++] - 1;
        if (task >= TASKS || (members >> task & 1) == 0)
            return wrong;
        members ^= UINT32_C(1) << task;
        falls |= seen->priority[task] < priority;
        priority = seen->priority[task];
    }
    seen->falls |= (int)falls;
    while (length < LIST_WORDS)
        if (list[length++] != 0)
            return wrong;
    return SECOND_RIGHT;
}

/* Along a list that has its tasks these numbers fall. */
static int list_falls(const uint32_t *list, const uint32_t priority[TASKS])
{
    uint32_t last = 0, falls = 0;

    for (size_t i = 0; i < LIST_WORDS && list[i] != 0; i++) {
        falls |= priority[list[i] - 1] < last;
        last = priority[list[i] - 1];
    }
    return (int)falls;
}

/* The kinds table, limit and start. */
static int kind_allows(uint32_t kind, uint32_t limit, uint32_t start)
{
    switch (kind) {
    case EVENT:
    case RESOURCE:
    case BOARD:
        return limit == 1 && start == 0;
    case SEMAPHORE:
        return limit >= 1 && limit <= SEMAPHORE_MAX && start <= limit;
    case PORT:
        return limit == 0 && start == 0;
    case FIFO:
        return limit >= 1 && limit <= FIFO_MAX && start == 0;
    case MEMORY:
        return limit >= 1 && limit <= BLOCKS_MAX && start == limit;
    default:
        return 0;
    }
}

/* Of a Resource whose count is in range: no bit stands for its count 0. */
static int owner_inactive(const uint32_t *hub, const census *seen)
{
    return hub[H_KIND] == RESOURCE && (seen->inactive << 1 >> hub[H_COUNT] & 1) != 0;
}

static int getters_may_wait(const uint32_t *hub, uint32_t waiters)
{
    if (hub[H_KIND] == PORT)
        return 1;
    if (hub[H_KIND] == RESOURCE)
        return hub[H_COUNT] != 0 && (waiters >> (hub[H_COUNT] - 1) & 1) == 0;
    return hub[H_COUNT] == 0;
}

static int putters_may_wait(const uint32_t *hub)
{
    return hub[H_KIND] != RESOURCE && hub[H_KIND] != BOARD && hub[H_KIND] != MEMORY &&
           hub[H_COUNT] == hub[H_LIMIT];
}

/* Block i's mark is 1 when it is out; behind the limit there is no block. The blocks that
 * aren't out are the count. */
static int memory_clause(const uint32_t *table, uint32_t number)
{
    const uint32_t *hub = table + hub_place(table, number);
    uint32_t out = 0;

    for (uint32_t block = 0; block < HELD_MOST; block++) {
        uint64_t mark = message(table, held_place(table, number, block));
        if (mark > 1)
            return SECOND_STORE;
        if (mark == 1 && block >= hub[H_LIMIT])
            return SECOND_STORE;
        out += mark == 1;
    }
    return hub[H_COUNT] + out == hub[H_LIMIT] ? SECOND_RIGHT : SECOND_BLOCKS;
}

static int hub_clause(const uint32_t *table, uint32_t number, census *seen)
{
    const uint32_t *hub = table + hub_place(table, number);
    uint32_t waiters = seen->waiters[number], putters = waiters & seen->putters;
    uint32_t most = hub[H_KIND] == RESOURCE ? table[TASKS_IN_USE_AT] : hub[H_LIMIT];

    if (!kind_allows(hub[H_KIND], hub[H_LIMIT], hub[H_START]))
        return SECOND_KIND;
    if (hub[H_COUNT] > most)
        return SECOND_COUNT;
    if (owner_inactive(hub, seen))
        return SECOND_OWNER;

    const uint32_t *list = table + list_place(table, number);
    int clause = list_clause(list, waiters, SECOND_WAITING_LIST, seen);
    if (clause != SECOND_RIGHT)
        return clause;
    if (waiters != 0) {
        seen->locks |= hub[H_KIND] == RESOURCE;
        if (putters != 0 && putters != waiters)
            return SECOND_ONE_SIDE;
        if (putters == 0 && !getters_may_wait(hub, waiters))
            return SECOND_GETTERS;
        if (putters != 0 && !putters_may_wait(hub))
            return SECOND_PUTTERS;
    }

    if (hub[H_KIND] == MEMORY)
        return memory_clause(table, number);
    uint32_t held = holds_words(hub[H_KIND]) ? hub[H_COUNT] : 0;
    size_t behind = held_place(table, number, held), end = held_place(table, number, HELD_MOST);
    return all_zero(table + behind, end - behind) ? SECOND_RIGHT : SECOND_STORE;
}

/* Each list has its tasks when this is asked. Own priorities become effective ones, which are
 * the same where nobody waits for a lock, and then the walk has noted it. */
static int order_clause(const uint32_t *table, census *seen)
{
    if (seen->locks) {
        hand_on(table, seen->priority);
        seen->falls = list_falls(table + ready_place(table), seen->priority);
        for (uint32_t hub = 0; hub < table[HUBS_IN_USE_AT]; hub++)
            seen->falls |= list_falls(table + list_place(table, hub), seen->priority);
    }
    return seen->falls ? SECOND_ORDER : SECOND_RIGHT;
}

/* Gives the effective priorities, too, of a table that is right but for its order. */
static int first_broken(const uint32_t *table, size_t words, uint32_t effective[TASKS])
{
    const layout *of = layout_for(words);
    census seen = {0, 0, 0, {0}, effective, 0, 0};
    int clause;

    if (of == NULL)
        return SECOND_LENGTH;
    if ((clause = contents_clause(table, of)) != SECOND_RIGHT)
        return clause;
    if ((clause = unused_clause(table)) != SECOND_RIGHT)
        return clause;
    for (uint32_t task = 0; task < table[TASKS_IN_USE_AT]; task++)
        if ((clause = task_clause(table, task, &seen)) != SECOND_RIGHT)
            return clause;
    for (uint32_t hub = 0; hub < table[HUBS_IN_USE_AT]; hub++)
        if ((clause = hub_clause(table, hub, &seen)) != SECOND_RIGHT)
            return clause;
    clause = list_clause(table + ready_place(table), seen.ready, SECOND_READY_LIST, &seen);
    return clause == SECOND_RIGHT ? order_clause(table, &seen) : clause;
}

int second_well_formed(const uint32_t *table, size_t words)
{
    uint32_t effective[TASKS];

    return first_broken(table, words, effective);
}

/* ---- Lists ------------------------------------------------------------- */

/* The first ready task that isn't suspended, plus 1, or 0. */
static uint32_t running(const uint32_t *table)
{
    const uint32_t *entry = table + ready_place(table), *end = entry + LIST_WORDS;

    for (; entry < end && *entry != 0; entry++)
        if (table[task_place(table, *entry - 1) + T_SUSPENDED] == 0)
            return *entry;
    return 0;
}

/* Behind all entries of its own or a more urgent priority; which is the effective one while
 * the records wear it. */
static void join(uint32_t *table, size_t list, uint32_t task)
{
    uint32_t *entry = table + list, carried = task + 1;
    uint32_t own = table[task_place(table, task) + T_PRIORITY];

    while (*entry != 0 && table[task_place(table, *entry - 1) + T_PRIORITY] <= own)
        entry++;
    while (carried != 0) {
        uint32_t pushed = *entry;
        *entry++ = carried;
        carried = pushed;
    }
}

/* How many entries stand before the task in a list that it has joined. */
static uint32_t entries_before(const uint32_t *table, size_t list, uint32_t task)
{
    uint32_t before = 0;

    while (table[list + before] != task + 1)
        before++;
    return before;
}

static void leave(uint32_t *table, size_t list, uint32_t task)
{
    uint32_t *entry = table + list, *last = entry + LIST_WORDS - 1;

    while (*entry != task + 1)
        entry++;
    memmove(entry, entry + 1, (size_t)(last - entry) * sizeof *entry);
    *last = 0;
}

/* From waiting or sleeping (or new): answer and word given, the rest cleared. */
static void make_ready(uint32_t *table, uint32_t number, uint32_t answer, uint64_t word)
{
    uint32_t *task = table + task_place(table, number);

    task[T_STATE] = READY;
    task[T_HUB] = 0;
    task[T_TICKS] = 0;
    task[T_SIDE] = NO_SIDE;
    set_message(table, word_place(table, number), word);
    task[answer_at(table)] = answer;
    join(table, ready_place(table), number);
}

/* Takes a task from the list its state says, if any; the record is left. */
static void leave_any_list(uint32_t *table, uint32_t number)
{
    const uint32_t *task = table + task_place(table, number);

    if (task[T_STATE] == READY)
        leave(table, ready_place(table), number);
    else if (task[T_STATE] == WAITING)
        leave(table, list_place(table, task[T_HUB] - 1), number);
}

/* ---- Hubs -------------------------------------------------------------- */

typedef enum { NOT_NOW, MET, FAILED } outcome;

/* The side of all the hub's waiters; a list holds one side only. */
static uint32_t waiting_side(const uint32_t *table, uint32_t hub)
{
    uint32_t first = table[list_place(table, hub)];
    return first == 0 ? NO_SIDE : table[task_place(table, first - 1) + T_SIDE];
}

/* Meets the hub's first waiter, which receives the word; gives its number. */
static uint32_t meet_first(uint32_t *table, uint32_t hub, uint64_t received)
{
    uint32_t task = table[list_place(table, hub)] - 1;

    leave(table, list_place(table, hub), task);
    make_ready(table, task, OK, received);
    return task;
}

/* An Event is a counter with limit 1, so one rule serves both kinds. */
static outcome counter_put(uint32_t *table, uint32_t number)
{
    uint32_t *hub = table + hub_place(table, number);

    if (waiting_side(table, number) == GET)
        meet_first(table, number, 0);
    else if (hub[H_COUNT] < hub[H_LIMIT])
        hub[H_COUNT]++;
    else
        return NOT_NOW;
    return MET;
}

static outcome counter_get(uint32_t *table, uint32_t number)
{
    uint32_t *hub = table + hub_place(table, number);

    if (hub[H_COUNT] == 0)
        return NOT_NOW;
    if (waiting_side(table, number) == PUT)
        meet_first(table, number, 0);
    else
        hub[H_COUNT]--;
    return MET;
}

static outcome port_put(uint32_t *table, uint32_t number, uint64_t word)
{
    if (waiting_side(table, number) != GET)
        return NOT_NOW;
    meet_first(table, number, word);
    return MET;
}

/* The word a putter at the head of the list brought, while it still waits. */
static uint64_t first_word(const uint32_t *table, uint32_t hub)
{
    return message(table, word_place(table, table[list_place(table, hub)] - 1));
}

static outcome port_get(uint32_t *table, uint32_t number, uint64_t *received)
{
    if (waiting_side(table, number) != PUT)
        return NOT_NOW;
    *received = first_word(table, number);
    meet_first(table, number, 0);
    return MET;
}

static outcome fifo_put(uint32_t *table, uint32_t number, uint64_t word)
{
    uint32_t *hub = table + hub_place(table, number);

    if (waiting_side(table, number) == GET)
        meet_first(table, number, word);
    else if (hub[H_COUNT] < hub[H_LIMIT])
        set_message(table, held_place(table, number, hub[H_COUNT]++), word);
    else
        return NOT_NOW;
    return MET;
}

static outcome fifo_get(uint32_t *table, uint32_t number, uint64_t *received)
{
    uint32_t *hub = table + hub_place(table, number);

    if (hub[H_COUNT] == 0)
        return NOT_NOW;
    *received = message(table, held_place(table, number, 0));
    hub[H_COUNT]--;
    for (uint32_t i = 0; i < hub[H_COUNT]; i++)
        set_message(table, held_place(table, number, i),
                    message(table, held_place(table, number, i + 1)));
    set_message(table, held_place(table, number, hub[H_COUNT]), 0);
    if (waiting_side(table, number) == PUT) {
        set_message(table, held_place(table, number, hub[H_COUNT]++), first_word(table, number));
        meet_first(table, number, 0);
    }
    return MET;
}

/* The first waiter is met and becomes owner; without one the Resource is free. */
static void pass_on(uint32_t *table, uint32_t number)
{
    uint32_t *hub = table + hub_place(table, number);

    hub[H_COUNT] = waiting_side(table, number) == GET ? meet_first(table, number, 0) + 1 : 0;
}

static outcome resource_put(uint32_t *table, uint32_t number, uint32_t caller)
{
    const uint32_t *hub = table + hub_place(table, number);

    if (hub[H_COUNT] != caller + 1)
        return FAILED;
    pass_on(table, number);
    return MET;
}

static outcome resource_get(uint32_t *table, uint32_t number, uint32_t caller)
{
    uint32_t *hub = table + hub_place(table, number);

    if (hub[H_COUNT] == caller + 1)
        return FAILED;
    if (hub[H_COUNT] != 0)
        return NOT_NOW;
    hub[H_COUNT] = caller + 1;
    return MET;
}

/* The readers leave the list from its front, so equals are ready in its order. */
static outcome board_update(uint32_t *table, uint32_t number, uint64_t word)
{
    table[hub_place(table, number) + H_COUNT] = 1;
    set_message(table, store_place(table, number), word);
    while (waiting_side(table, number) == GET)
        meet_first(table, number, word);
    return MET;
}

static outcome board_read(const uint32_t *table, uint32_t number, uint64_t *received)
{
    if (table[hub_place(table, number) + H_COUNT] == 0)
        return NOT_NOW;
    *received = message(table, store_place(table, number));
    return MET;
}

/* Readers who wait for a word go on waiting. */
static outcome board_wipe(uint32_t *table, uint32_t number)
{
    table[hub_place(table, number) + H_COUNT] = 0;
    set_message(table, store_place(table, number), 0);
    return MET;
}

/* The number is the whole message, so one with a high word is no block's. */
static int is_out(const uint32_t *table, uint32_t number, uint64_t block)
{
    if (block >= table[hub_place(table, number) + H_LIMIT])
        return 0;
    return table[held_place(table, number, (uint32_t)block)] == 1;
}

/* Getters wait only while every block is out: the block that comes back goes to the first
 * of them, so its mark and the count stay. */
static outcome memory_put(uint32_t *table, uint32_t number, uint64_t block)
{
    if (!is_out(table, number, block))
        return FAILED;
    if (waiting_side(table, number) == GET) {
        meet_first(table, number, block);
        return MET;
    }
    table[held_place(table, number, (uint32_t)block)] = 0;
    table[hub_place(table, number) + H_COUNT]++;
    return MET;
}

/* The lowest block that isn't out. */
static outcome memory_get(uint32_t *table, uint32_t number, uint64_t *received)
{
    uint32_t *hub = table + hub_place(table, number), block = 0;

    if (hub[H_COUNT] == 0)
        return NOT_NOW;
    while (is_out(table, number, block))
        block++;
    table[held_place(table, number, block)] = 1;
    hub[H_COUNT]--;
    *received = block;
    return MET;
}

static outcome put(uint32_t *table, uint32_t hub, uint32_t caller, uint64_t word)
{
    switch (table[hub_place(table, hub) + H_KIND]) {
    case PORT:
        return port_put(table, hub, word);
    case FIFO:
        return fifo_put(table, hub, word);
    case RESOURCE:
        return resource_put(table, hub, caller);
    case BOARD:
        return board_update(table, hub, word);
    case MEMORY:
        return memory_put(table, hub, word);
    default:
        return counter_put(table, hub);
    }
}

static outcome get(uint32_t *table, uint32_t hub, uint32_t caller, uint64_t *received)
{
    switch (table[hub_place(table, hub) + H_KIND]) {
    case PORT:
        return port_get(table, hub, received);
    case FIFO:
        return fifo_get(table, hub, received);
    case RESOURCE:
        return resource_get(table, hub, caller);
    case BOARD:
        return board_read(table, hub, received);
    case MEMORY:
        return memory_get(table, hub, received);
    default:
        return counter_get(table, hub);
    }
}

/* ---- Services ---------------------------------------------------------- */

/* The edition that fits the length. */
static void blank(uint32_t *table, const layout *of)
{
    memset(table, 0, of->words * sizeof *table);
    write_contents(table, of);
}

static void wait_at_hub(uint32_t *table, const uint32_t *call)
{
    uint32_t *caller = table + task_place(table, call[C_CALLER]), hub = call[C_TARGET];
    int keeps_word = call[C_SIDE] == PUT && carries_words(table[hub_place(table, hub) + H_KIND]);

    leave(table, ready_place(table), call[C_CALLER]);
    caller[T_STATE] = WAITING;
    caller[T_HUB] = hub + 1;
    caller[T_TICKS] = call[C_TICKS]; /* 0 under W, so no limit */
    caller[T_SIDE] = call[C_SIDE];
    set_message(table, word_place(table, call[C_CALLER]), keeps_word ? sent(call) : 0);
    caller[answer_at(table)] = NO_ANSWER;
    join(table, list_place(table, hub), call[C_CALLER]);
}

static void hub_request(uint32_t *table, const uint32_t *call)
{
    uint32_t *caller = table + task_place(table, call[C_CALLER]);
    uint64_t received = 0;
    outcome out = call[C_SIDE] == PUT
                      ? put(table, call[C_TARGET], call[C_CALLER], sent(call))
                  : call[C_SIDE] == GET
                      ? get(table, call[C_TARGET], call[C_CALLER], &received)
                      : board_wipe(table, call[C_TARGET]); /* no other kind knows side 3 */

    if (out == NOT_NOW && call[C_MODE] != NW) {
        wait_at_hub(table, call);
        return;
    }
    caller[answer_at(table)] = out == MET ? OK : FAIL;
    set_message(table, word_place(table, call[C_CALLER]), received);
}

static int start(uint32_t *table, uint32_t target)
{
    if (table[task_place(table, target) + T_STATE] != INACTIVE)
        return 0;
    make_ready(table, target, NO_ANSWER, 0);
    return 1;
}

/* In hub number order, which those met keep among equals in the ready list. */
static void give_up_locks(uint32_t *table, uint32_t owner)
{
    for (uint32_t number = 0; number < table[HUBS_IN_USE_AT]; number++) {
        const uint32_t *hub = table + hub_place(table, number);
        if (hub[H_KIND] == RESOURCE && hub[H_COUNT] == owner + 1)
            pass_on(table, number);
    }
}

static int stop(uint32_t *table, uint32_t target, uint32_t caller)
{
    uint32_t *task = table + task_place(table, target), priority = task[T_PRIORITY];

    if (task[T_STATE] == INACTIVE || target == caller)
        return 0;
    leave_any_list(table, target);
    memset(task, 0, layout_of(table)->task_words * sizeof *task);
    task[T_STATE] = INACTIVE;
    task[T_PRIORITY] = priority;
    give_up_locks(table, target);
    return 1;
}

static int suspend(uint32_t *table, uint32_t target, uint32_t caller)
{
    uint32_t *task = table + task_place(table, target);

    if (task[T_STATE] == INACTIVE || task[T_SUSPENDED] != 0 || target == caller)
        return 0;
    task[T_SUSPENDED] = 1;
    return 1;
}

static int resume(uint32_t *table, uint32_t target)
{
    uint32_t *task = table + task_place(table, target);

    if (task[T_SUSPENDED] == 0)
        return 0;
    task[T_SUSPENDED] = 0;
    return 1;
}

static int yield(uint32_t *table, uint32_t caller)
{
    leave(table, ready_place(table), caller);
    join(table, ready_place(table), caller);
    return 1;
}

/* Services 2 to 6: whether the condition holds is the caller's answer. */
static void task_service(uint32_t *table, const uint32_t *call)
{
    uint32_t *caller = table + task_place(table, call[C_CALLER]), target = call[C_TARGET];
    int holds = 0;

    switch (call[C_SERVICE]) {
    case START:
        holds = start(table, target);
        break;
    case STOP:
        holds = stop(table, target, call[C_CALLER]);
        break;
    case SUSPEND:
        holds = suspend(table, target, call[C_CALLER]);
        break;
    case RESUME:
        holds = resume(table, target);
        break;
    case YIELD:
        holds = yield(table, call[C_CALLER]);
        break;
    }
    caller[answer_at(table)] = holds ? OK : FAIL;
    set_message(table, word_place(table, call[C_CALLER]), 0);
}

static void sleep(uint32_t *table, const uint32_t *call)
{
    uint32_t *caller = table + task_place(table, call[C_CALLER]);

    leave(table, ready_place(table), call[C_CALLER]);
    caller[T_STATE] = SLEEPING;
    caller[T_TICKS] = call[C_TICKS];
    set_message(table, word_place(table, call[C_CALLER]), 0);
    caller[answer_at(table)] = NO_ANSWER;
}

/* Only waiting and sleeping tasks have ticks above 0. */
static void tick(uint32_t *table)
{
    for (uint32_t number = 0; number < table[TASKS_IN_USE_AT]; number++) {
        uint32_t *task = table + task_place(table, number);
        if (task[T_TICKS] == 0 || --task[T_TICKS] != 0)
            continue;
        leave_any_list(table, number);
        make_ready(table, number, TO, 0);
    }
}

static void add_task(uint32_t *table, const uint32_t *call)
{
    uint32_t number = table[TASKS_IN_USE_AT]++;
    uint32_t *task = table + task_place(table, number);

    task[T_STATE] = INACTIVE;
    task[T_PRIORITY] = call[C_TARGET];
    if (call[C_SIDE] == 1)
        start(table, number);
}

static void add_hub(uint32_t *table, const uint32_t *call)
{
    uint32_t *hub = table + hub_place(table, table[HUBS_IN_USE_AT]++);

    hub[H_KIND] = call[C_TARGET];
    hub[H_COUNT] = call[C_WORD];
    hub[H_LIMIT] = call[C_TICKS];
    hub[H_START] = call[C_WORD];
}

/* ---- Refusals ---------------------------------------------------------- */

static int has_caller(uint32_t service) { return service >= HUB_REQUEST && service <= SLEEP; }

/* No task number is next minus 1 when next is 0, the largest number included. */
static int caller_runs(const uint32_t *table, uint32_t caller)
{
    uint32_t next = running(table);
    return next != 0 && caller == next - 1;
}

static int target_in_use(const uint32_t *table, const uint32_t *call)
{
    switch (call[C_SERVICE]) {
    case HUB_REQUEST:
        return call[C_TARGET] < table[HUBS_IN_USE_AT];
    case START:
    case STOP:
    case SUSPEND:
    case RESUME:
        return call[C_TARGET] < table[TASKS_IN_USE_AT];
    default:
        return 1;
    }
}

static int ticks_in_range(uint32_t ticks) { return ticks >= 1 && ticks <= TICKS_MAX; }

static int request_right(const uint32_t *call)
{
    if (call[C_SIDE] < PUT || call[C_SIDE] > WIPE)
        return 0;
    if (call[C_MODE] == WT)
        return ticks_in_range(call[C_TICKS]);
    return (call[C_MODE] == W || call[C_MODE] == NW) && call[C_TICKS] == 0;
}

static int arguments_right(const uint32_t *call)
{
    switch (call[C_SERVICE]) {
    case HUB_REQUEST:
        return request_right(call);
    case SLEEP:
        return ticks_in_range(call[C_TICKS]);
    case ADD_TASK:
        return call[C_TARGET] <= PRIORITY_MAX && call[C_SIDE] <= 1;
    case ADD_HUB:
        return kind_allows(call[C_TARGET], call[C_TICKS], call[C_WORD]);
    default:
        return 1;
    }
}

/* Side 3 is for a Board; the target is in use when this is asked. */
static int side_known(const uint32_t *table, const uint32_t *call)
{
    return call[C_SERVICE] != HUB_REQUEST || call[C_SIDE] != WIPE ||
           table[hub_place(table, call[C_TARGET]) + H_KIND] == BOARD;
}

/* Edition 1 has no place for a high word, whatever the kind and the side. */
static int high_fits(const uint32_t *table, const uint32_t *call)
{
    return call[C_SERVICE] != HUB_REQUEST || call[C_HIGH] == 0 || is_wide(table);
}

static int room_left(const uint32_t *table, uint32_t service)
{
    if (service == ADD_TASK)
        return table[TASKS_IN_USE_AT] < TASKS;
    if (service == ADD_HUB)
        return table[HUBS_IN_USE_AT] < HUBS;
    return 1;
}

/* Gives the effective priorities, too, unless it is Blank or the table isn't well formed. */
static uint32_t refusal_of(const uint32_t *table, size_t words, const uint32_t *call,
                           uint32_t effective[TASKS])
{
    if (layout_for(words) == NULL)
        return BAD_LENGTH;
    if (call[C_SERVICE] == BLANK)
        return ACCEPTED;
    if (first_broken(table, words, effective) != SECOND_RIGHT)
        return NOT_WELL_FORMED;
    if (call[C_SERVICE] > ADD_HUB)
        return NO_SUCH_SERVICE;
    if (has_caller(call[C_SERVICE]) && !caller_runs(table, call[C_CALLER]))
        return NOT_RUNNING;
    if (!target_in_use(table, call))
        return NOT_IN_USE;
    if (!arguments_right(call))
        return BAD_ARGUMENT;
    if (!side_known(table, call))
        return BAD_ARGUMENT;
    if (!high_fits(table, call))
        return BAD_ARGUMENT;
    if (!room_left(table, call[C_SERVICE]))
        return TABLE_FULL;
    return ACCEPTED;
}

static void serve(uint32_t *table, const uint32_t *call)
{
    switch (call[C_SERVICE]) {
    case HUB_REQUEST:
        hub_request(table, call);
        break;
    case SLEEP:
        sleep(table, call);
        break;
    case TICK:
        tick(table);
        break;
    case ADD_TASK:
        add_task(table, call);
        break;
    case ADD_HUB:
        add_hub(table, call);
        break;
    default:
        task_service(table, call);
        break;
    }
}

/* ---- Order ------------------------------------------------------------- */

/* The first so many tasks' records get these numbers as priorities. */
static void wear(uint32_t *table, uint32_t tasks, const uint32_t priority[TASKS])
{
    uint32_t *place = table + task_place(table, 0) + T_PRIORITY;
    size_t words = layout_of(table)->task_words;

    for (uint32_t task = 0; task < tasks; task++, place += words)
        *place = priority[task];
}

static void own_priorities(const uint32_t *table, uint32_t tasks, uint32_t own[TASKS])
{
    for (uint32_t task = 0; task < tasks; task++)
        own[task] = table[task_place(table, task) + T_PRIORITY];
}

static void join_any_list(uint32_t *table, uint32_t number)
{
    const uint32_t *task = table + task_place(table, number);

    if (task[T_STATE] == READY)
        join(table, ready_place(table), number);
    else if (task[T_STATE] == WAITING)
        join(table, list_place(table, task[T_HUB] - 1), number);
}

/* "All tasks whose effective priority changed are taken out of their lists, then put back
 * behind their equals in task number order." The records wear the new ones. */
static void put_back(uint32_t *table, uint32_t tasks, const uint32_t *old, const uint32_t *new)
{
    for (uint32_t task = 0; task < tasks; task++)
        if (new[task] != old[task])
            leave_any_list(table, task);
    for (uint32_t task = 0; task < tasks; task++)
        if (new[task] != old[task])
            join_any_list(table, task);
}

/* "During a call each task joins by its effective priority before the call": while it is
 * served the records wear those, and nothing but join reads them. A task that the call adds
 * has its own, which isn't touched here; nobody waits for it, so it doesn't change either. */
static void serve_in_order(uint32_t *table, const uint32_t *call, const uint32_t old[TASKS])
{
    uint32_t own[TASKS], new[TASKS], tasks = table[TASKS_IN_USE_AT];

    own_priorities(table, tasks, own);
    wear(table, tasks, old);
    serve(table, call);
    wear(table, tasks, own);
    own_priorities(table, tasks, new);
    hand_on(table, new);
    if (memcmp(new, old, tasks * sizeof *new) == 0)
        return;
    wear(table, tasks, new);
    put_back(table, tasks, old, new);
    wear(table, tasks, own);
}

/* Read when the lists are in order again; nobody is ahead of a request that doesn't wait. */
static uint32_t ahead_of_caller(const uint32_t *table, const uint32_t *call)
{
    uint32_t hub = call[C_TARGET];

    if (call[C_SERVICE] != HUB_REQUEST)
        return 0;
    const uint32_t *caller = table + task_place(table, call[C_CALLER]);
    if (caller[T_STATE] != WAITING)
        return 0;
    return entries_before(table, list_place(table, hub), call[C_CALLER]);
}

/* ---- The listing ------------------------------------------------------- */

/* Text as it is written, byte by byte; with nowhere to write, bytes are only
 * counted. So one description of the text gives its length first. */
typedef struct {
    uint8_t *text; /* or NULL */
    size_t length;
} writer;

static void write_byte(writer *to, int byte)
{
    if (to->text != NULL)
        to->text[to->length] = (uint8_t)byte;
    to->length++;
}

static void write_number(writer *to, uint32_t number)
{
    if (number >= 10)
        write_number(to, number / 10);
    write_byte(to, '0' + (int)(number % 10));
}

static void write_line(writer *to, const uint32_t call[CALL_NUMBERS])
{
    for (int i = 0; i < LINE_NUMBERS; i++) {
        write_number(to, call[i]);
        write_byte(to, i + 1 < LINE_NUMBERS ? ' ' : '\n');
    }
}

static void write_tasks(writer *to, const uint32_t *table)
{
    for (uint32_t number = 0; number < table[TASKS_IN_USE_AT]; number++) {
        const uint32_t *task = table + task_place(table, number);
        write_line(to, (uint32_t[CALL_NUMBERS]){[C_SERVICE] = ADD_TASK,
                                                [C_TARGET] = task[T_PRIORITY]});
    }
}

static void write_hubs(writer *to, const uint32_t *table)
{
    for (uint32_t number = 0; number < table[HUBS_IN_USE_AT]; number++) {
        const uint32_t *hub = table + hub_place(table, number);
        write_line(to, (uint32_t[CALL_NUMBERS]){[C_SERVICE] = ADD_HUB,
                                                [C_TARGET] = hub[H_KIND],
                                                [C_TICKS] = hub[H_LIMIT],
                                                [C_WORD] = hub[H_START]});
    }
}

static void write_set_up(writer *to, const uint32_t *table)
{
    write_line(to, (uint32_t[CALL_NUMBERS]){[C_SERVICE] = BLANK});
    write_tasks(to, table);
    write_hubs(to, table);
}

/* ---- The moves --------------------------------------------------------- */

/* What stands the same way in both editions, only elsewhere: T and H, the hub records,
 * the ready list and the waiting lists. The bodies in between begin with the hubs. */
static void copy_common(uint32_t *to, const uint32_t *from)
{
    memcpy(to + TASKS_IN_USE_AT, from + TASKS_IN_USE_AT, 2 * sizeof *to);
    memcpy(to + hub_place(to, 0), from + hub_place(from, 0),
           (store_place(from, 0) - hub_place(from, 0)) * sizeof *to);
}

/* Every task record, then every store, message by message, in use or not: what isn't is 0
 * in a well-formed table, and becomes so here. Both tables have their editions already. */
static void copy_messages(uint32_t *to, const uint32_t *from)
{
    for (uint32_t task = 0; task < TASKS; task++) {
        memcpy(to + task_place(to, task), from + task_place(from, task), T_WORD * sizeof *to);
        set_message(to, word_place(to, task), message(from, word_place(from, task)));
        to[task_place(to, task) + answer_at(to)] = from[task_place(from, task) + answer_at(from)];
    }
    for (uint32_t hub = 0; hub < HUBS; hub++)
        for (uint32_t i = 0; i < HELD_MOST; i++)
            set_message(to, held_place(to, hub, i), message(from, held_place(from, hub, i)));
}

/* Of an edition 2 table. */
static int has_high_word(const uint32_t *table)
{
    uint64_t any = 0;

    for (uint32_t task = 0; task < TASKS; task++)
        any |= message(table, word_place(table, task));
    for (uint32_t hub = 0; hub < HUBS; hub++)
        for (uint32_t i = 0; i < HELD_MOST; i++)
            any |= message(table, held_place(table, hub, i));
    return any >> 32 != 0;
}

static uint32_t move(const uint32_t *from, size_t from_words, const layout *old, uint32_t *to,
                     size_t to_words, const layout *new)
{
    if (from_words != old->words || to_words != new->words)
        return BAD_LENGTH;
    if (second_well_formed(from, from_words) != SECOND_RIGHT)
        return NOT_WELL_FORMED;
    if (new->message_words < old->message_words && has_high_word(from))
        return HIGH_WORD;
    write_contents(to, new);
    copy_common(to, from);
    copy_messages(to, from);
    return ACCEPTED;
}

uint32_t second_move_up(const uint32_t *from, size_t from_words, uint32_t *to, size_t to_words)
{
    return move(from, from_words, &layouts[0], to, to_words, &layouts[1]);
}

uint32_t second_move_down(const uint32_t *from, size_t from_words, uint32_t *to, size_t to_words)
{
    return move(from, from_words, &layouts[1], to, to_words, &layouts[0]);
}

/* ---- The comparison ---------------------------------------------------- */

/* 1 or 2, as every call tests them first; else 0. */
static uint32_t table_refusal(const uint32_t *table, size_t words)
{
    if (layout_for(words) == NULL)
        return BAD_LENGTH;
    return second_well_formed(table, words) == SECOND_RIGHT ? ACCEPTED : NOT_WELL_FORMED;
}

static void write_entry(uint32_t *entry, uint32_t place, uint32_t old, uint32_t new)
{
    entry[E_PLACE] = place;
    entry[E_OLD] = old;
    entry[E_NEW] = new;
}

/* Gives how many places differ. With nowhere to write, they are only counted: that tells
 * whether there is room for them before a word is written. */
static uint32_t differing(const uint32_t *old, const uint32_t *new, size_t words, uint32_t *places)
{
    uint32_t count = 0;

    for (uint32_t place = 0; place < words; place++) {
        if (old[place] == new[place])
            continue;
        if (places != NULL)
            write_entry(places + ENTRY_WORDS * count, place, old[place], new[place]);
        count++;
    }
    return count;
}

second_compare_reply second_compare(const uint32_t *first, size_t first_words,
                                    const uint32_t *second, size_t second_words,
                                    uint32_t *places, size_t room)
{
    second_compare_reply reply = {table_refusal(first, first_words), 0};

    if (reply.refusal == ACCEPTED)
        reply.refusal = table_refusal(second, second_words);
    if (reply.refusal == ACCEPTED && first_words != second_words)
        reply.refusal = DIFFERING_EDITIONS;
    if (reply.refusal != ACCEPTED)
        return reply;
    uint32_t count = differing(first, second, first_words, NULL);
    if (room < ENTRY_WORDS * (size_t)count)
        return (second_compare_reply){SHORT_BUFFER, 0};
    reply.count = differing(first, second, first_words, places);
    return reply;
}

/* ---- Edges ------------------------------------------------------------- */

second_reply second_call(uint32_t *table, size_t words, const uint32_t call[8])
{
    uint32_t effective[TASKS];
    second_reply reply = {refusal_of(table, words, call, effective), 0, 0, 0};

    if (reply.refusal != ACCEPTED)
        return reply;
    if (call[C_SERVICE] == BLANK)
        blank(table, layout_for(words));
    else
        serve_in_order(table, call, effective);
    if (has_caller(call[C_SERVICE]))
        reply.answer = table[task_place(table, call[C_CALLER]) + answer_at(table)];
    reply.ahead = ahead_of_caller(table, call);
    reply.next = running(table);
    return reply;
}

second_summary_reply second_summary(const uint32_t *table, size_t words, uint32_t hub)
{
    second_summary_reply reply = {ACCEPTED, 0, 0};

    if (layout_for(words) == NULL)
        reply.refusal = BAD_LENGTH;
    else if (second_well_formed(table, words) != SECOND_RIGHT)
        reply.refusal = NOT_WELL_FORMED;
    else if (hub >= table[HUBS_IN_USE_AT])
        reply.refusal = NOT_IN_USE;
    if (reply.refusal != ACCEPTED)
        return reply;

    const uint32_t *list = table + list_place(table, hub);
    for (; reply.count < LIST_WORDS && list[reply.count] != 0; reply.count++)
        reply.mask |= UINT32_C(1) << (list[reply.count] - 1);
    return reply;
}

second_listing_reply second_listing(const uint32_t *table, size_t words, uint8_t *text,
                                    size_t room)
{
    writer counted = {NULL, 0}, written = {text, 0};

    if (layout_for(words) == NULL)
        return (second_listing_reply){BAD_LENGTH, 0};
    if (second_well_formed(table, words) != SECOND_RIGHT)
        return (second_listing_reply){NOT_WELL_FORMED, 0};
    write_set_up(&counted, table);
    if (room < counted.length)
        return (second_listing_reply){SHORT_BUFFER, 0};
    write_set_up(&written, table);
    return (second_listing_reply){ACCEPTED, (uint32_t)written.length};
}

/* So many words of a buffer of bytes, whole ones or not: a length that isn't whole words
 * is no table's, and neither are 0 words. */
static size_t whole_words(size_t bytes) { return bytes % 4 == 0 ? bytes / 4 : 0; }

static void words_from_bytes(uint32_t *table, const uint8_t *bytes, size_t words)
{
    for (size_t i = 0; i < words; i++, bytes += 4)
        table[i] = (uint32_t)bytes[0] | (uint32_t)bytes[1] << 8 | (uint32_t)bytes[2] << 16 |
                   (uint32_t)bytes[3] << 24;
}

static void bytes_from_words(uint8_t *bytes, const uint32_t *table, size_t words)
{
    for (size_t i = 0; i < words; i++, bytes += 4) {
        bytes[0] = (uint8_t)table[i];
        bytes[1] = (uint8_t)(table[i] >> 8);
        bytes[2] = (uint8_t)(table[i] >> 16);
        bytes[3] = (uint8_t)(table[i] >> 24);
    }
}

second_reply second_call_bytes(uint8_t *bytes, size_t length, const uint32_t call[8])
{
    uint32_t table[WORDS_MOST];
    size_t words = whole_words(length);

    if (layout_for(words) == NULL)
        return (second_reply){BAD_LENGTH, 0, 0, 0};
    words_from_bytes(table, bytes, words);
    second_reply reply = second_call(table, words, call);
    if (reply.refusal == ACCEPTED)
        bytes_from_words(bytes, table, words);
    return reply;
}

second_summary_reply second_summary_bytes(const uint8_t *bytes, size_t length, uint32_t hub)
{
    uint32_t table[WORDS_MOST];
    size_t words = whole_words(length);

    if (layout_for(words) == NULL)
        return (second_summary_reply){BAD_LENGTH, 0, 0};
    words_from_bytes(table, bytes, words);
    return second_summary(table, words, hub);
}

second_listing_reply second_listing_bytes(const uint8_t *bytes, size_t length, uint8_t *text,
                                          size_t room)
{
    uint32_t table[WORDS_MOST];
    size_t words = whole_words(length);

    if (layout_for(words) == NULL)
        return (second_listing_reply){BAD_LENGTH, 0};
    words_from_bytes(table, bytes, words);
    return second_listing(table, words, text, room);
}

/* The move that starts at one of these two; the other table is of the other size, or the
 * move is refused before a word of it is written. */
static uint32_t move_bytes(const uint8_t *from, size_t from_bytes, uint8_t *to, size_t to_bytes,
                           uint32_t (*words_moved)(const uint32_t *, size_t, uint32_t *, size_t))
{
    uint32_t old[WORDS_MOST], new[WORDS_MOST];
    size_t from_words = whole_words(from_bytes), to_words = whole_words(to_bytes);

    if (layout_for(from_words) == NULL || layout_for(to_words) == NULL)
        return BAD_LENGTH;
    words_from_bytes(old, from, from_words);
    uint32_t refusal = words_moved(old, from_words, new, to_words);
    if (refusal == ACCEPTED)
        bytes_from_words(to, new, to_words);
    return refusal;
}

uint32_t second_move_up_bytes(const uint8_t *from, size_t from_bytes, uint8_t *to, size_t to_bytes)
{
    return move_bytes(from, from_bytes, to, to_bytes, second_move_up);
}

uint32_t second_move_down_bytes(const uint8_t *from, size_t from_bytes, uint8_t *to,
                                size_t to_bytes)
{
    return move_bytes(from, from_bytes, to, to_bytes, second_move_down);
}

/* A length that is no table's is told as 0 words, which is no table's either; whether that
 * is the refusal depends on the other table. */
second_compare_reply second_compare_bytes(const uint8_t *first, size_t first_bytes,
                                          const uint8_t *second, size_t second_bytes,
                                          uint32_t *places, size_t room)
{
    uint32_t old[WORDS_MOST], new[WORDS_MOST];
    size_t old_words = whole_words(first_bytes), new_words = whole_words(second_bytes);

    if (layout_for(old_words) != NULL)
        words_from_bytes(old, first, old_words);
    if (layout_for(new_words) != NULL)
        words_from_bytes(new, second, new_words);
    return second_compare(old, old_words, new, new_words, places, room);
}
