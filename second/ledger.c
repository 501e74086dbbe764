/* Demand 3's bookkeeping, with M-101's balance of each Resource, M-103's word of each
 * Board, M-105's messages and moves, M-107's balance of each block, and M-108's sentences on
 * who runs; ledger.h says what it
 * reads and what it doesn't. */
#include "ledger.h"

#include <string.h>

#include "numbers.h"

static uint32_t task_word(const uint32_t *table, uint32_t task, size_t field)
{
    return table[field_place(table, task, field)];
}

static int waits(const uint32_t *table, uint32_t task)
{
    return task < table[TASKS_IN_USE_AT] && task_word(table, task, T_STATE) == WAITING;
}

void ledger_begin(ledger *book)
{
    book->requests = 0;
    memset(book->open, 0, sizeof book->open);
    for (int hub = 0; hub < HUBS; hub++) {
        ledger_hub *of = &book->hub[hub];
        of->puts = of->gets = of->wipes = of->owners_removed = 0;
        memset(of->out, 0, sizeof of->out);
        of->written = 0;
    }
}

static uint32_t kind_of(const uint32_t *table, uint32_t hub)
{
    return table[hub_place(table, hub) + H_KIND];
}

/* An accepted Stop with answer 1 whose target owned the hub in the table before. */
static int stop_removes_owner(const uint32_t *before, const uint32_t *call, second_reply reply,
                              uint32_t hub)
{
    const uint32_t *record = before + hub_place(before, hub);

    return call[C_SERVICE] == STOP && reply.answer == OK && record[H_KIND] == RESOURCE &&
           record[H_COUNT] == call[C_TARGET] + 1;
}

/* ---- Urgency ----------------------------------------------------------- */

/* The owner of the lock that a task waits for, or the task itself. */
static uint32_t owner_awaited(const uint32_t *table, uint32_t task)
{
    const uint32_t *hub;

    if (!waits(table, task))
        return task;
    hub = table + hub_place(table, task_word(table, task, T_HUB) - 1);
    return hub[H_KIND] == RESOURCE ? hub[H_COUNT] - 1 : task;
}

/* The smallest own priority among a task and all that wait for it: it asks each waiter of
 * its Resources, who asks in turn, but for those in `asked`, who are being asked. */
static uint32_t most_urgent(const uint32_t *table, const uint32_t *owner, uint32_t task,
                            uint32_t asked)
{
    uint32_t least = task_word(table, task, T_PRIORITY);

    asked |= UINT32_C(1) << task;
    for (uint32_t other = 0; other < table[TASKS_IN_USE_AT]; other++) {
        if (owner[other] != task || (asked >> other & 1) != 0)
            continue;
        uint32_t of_other = most_urgent(table, owner, other, asked);
        least = of_other < least ? of_other : least;
    }
    return least;
}

static int may_run(const uint32_t *table, uint32_t task)
{
    return task_word(table, task, T_STATE) == READY && task_word(table, task, T_SUSPENDED) == 0;
}

/* Nobody who may run stands before the owner in the ready list and is less urgent. */
static int runs_before(const uint32_t *table, const uint32_t *least, uint32_t owner,
                       uint32_t urgency)
{
    for (size_t at = ready_place(table); table[at] != owner + 1; at++)
        if (may_run(table, table[at] - 1) && least[table[at] - 1] > urgency)
            return 0;
    return 1;
}

const char *ledger_urgency(const uint32_t *table, uint32_t next)
{
    uint32_t least[TASKS], owners[TASKS];

    for (uint32_t task = 0; task < table[TASKS_IN_USE_AT]; task++)
        owners[task] = owner_awaited(table, task);
    for (uint32_t task = 0; task < table[TASKS_IN_USE_AT]; task++)
        least[task] = most_urgent(table, owners, task, 0);
    for (uint32_t task = 0; task < table[TASKS_IN_USE_AT]; task++) {
        uint32_t owner = owners[task];
        if (may_run(table, task) && (next == 0 || least[task] < least[next - 1]))
            return "another ready task is more urgent than the one that runs";
        if (owner != task && may_run(table, owner) &&
            !runs_before(table, least, owner, least[task]))
            return "a task less urgent than a waiter stands before the owner of its lock";
    }
    return NULL;
}

/* ---- Classes ----------------------------------------------------------- */

/* The record still shows the request that the call made. */
static int still_shown(const ledger_request *request, const uint32_t *after)
{
    uint32_t left = request->ticks == 0 ? 0 : request->ticks - request->age;
    uint32_t kind = kind_of(after, request->hub);
    uint64_t kept = request->side == PUT && (kind == PORT || kind == FIFO) ? request->word : 0;

    return task_word(after, request->task, T_HUB) == request->hub + 1 &&
           task_word(after, request->task, T_SIDE) == request->side &&
           task_word(after, request->task, T_TICKS) == left &&
           task_message(after, request->task) == kept;
}

/* The message of a hub request. An accepted one to edition 1 has no high word. */
static uint64_t sent(const uint32_t *call)
{
    return call[C_WORD] + ((uint64_t)call[C_HIGH] << 32);
}

static const char *enter_request(ledger *book, const uint32_t *call, second_reply reply,
                                 const uint32_t *after)
{
    ledger_request *request = &book->request[book->requests++];
    uint32_t state = task_word(after, call[C_CALLER], T_STATE);
    uint32_t answer = task_word(after, call[C_CALLER], T_ANSWER);

    *request = (ledger_request){IS_WAITING, call[C_CALLER], call[C_TARGET], call[C_SIDE],
                                sent(call), call[C_TICKS],  0};
    if (reply.answer != answer)
        return "the reply isn't the caller's answer";
    if (state == WAITING && answer == NO_ANSWER) {
        book->open[call[C_CALLER]] = request;
        return still_shown(request, after) ? NULL : "a waiting request isn't as called";
    }
    if (state != READY || (answer != OK && answer != FAIL))
        return "a request is neither waiting, met nor failed after its call";
    request->class = answer == OK ? IS_MET : IS_FAILED;
    return NULL;
}

/* The class of a request that waited before the call, from the record after. */
static int class_after(const uint32_t *after, uint32_t task, ledger_class *class)
{
    uint32_t state = task_word(after, task, T_STATE), answer = task_word(after, task, T_ANSWER);

    if (state == WAITING)
        *class = IS_WAITING;
    else if (state == READY && answer == OK)
        *class = IS_MET;
    else if (state == READY && answer == TO)
        *class = IS_TIMED_OUT;
    else if (state == INACTIVE)
        *class = IS_WITHDRAWN;
    else
        return 0;
    return 1;
}

/* Met means met: the first waiter, of the other side, at the caller's hub; any reader
 * of the Board that the caller updates; or the first waiter for a Resource that the
 * stopped task owned. */
static int may_be_met(const ledger_request *request, const uint32_t *before, const uint32_t *call,
                      second_reply reply)
{
    int is_first = before[list_place(before, request->hub)] == request->task + 1;
    int at_board = kind_of(before, request->hub) == BOARD;

    if (call[C_SERVICE] != HUB_REQUEST)
        return is_first && stop_removes_owner(before, call, reply, request->hub);
    return call[C_TARGET] == request->hub && (is_first || at_board) &&
           ((call[C_SIDE] == PUT && request->side == GET) ||
            (call[C_SIDE] == GET && request->side == PUT && !at_board));
}

static const char *follow_waiter(ledger *book, uint32_t task, const uint32_t *before,
                                 const uint32_t *call, second_reply reply, const uint32_t *after)
{
    ledger_request *request = book->open[task];

    if (call[C_SERVICE] == TICK)
        request->age++;
    if (!class_after(after, task, &request->class))
        return "a request left waiting into no class";
    if (request->class == IS_WAITING) {
        if (request->ticks != 0 && request->age >= request->ticks)
            return "a request under WT outlived its ticks";
        return still_shown(request, after) ? NULL : "a waiting request changed";
    }
    book->open[task] = NULL;
    if (request->class == IS_MET && !may_be_met(request, before, call, reply))
        return "a request turned met that the call didn't meet";
    if (request->class == IS_TIMED_OUT &&
        (call[C_SERVICE] != TICK || request->ticks == 0 || request->age != request->ticks))
        return "a request timed out before its time or outside Tick";
    if (request->class == IS_WITHDRAWN && (call[C_SERVICE] != STOP || call[C_TARGET] != task))
        return "a request was withdrawn outside its task's Stop";
    return NULL;
}

/* ---- Words and counts -------------------------------------------------- */

/* A number that no block has is counted nowhere: then the blocks out don't add up to the
 * met gets less the met puts. */
static void enter_block(ledger_hub *hub, uint64_t block, uint32_t more)
{
    if (block < BLOCKS_MAX)
        hub->out[block] += more;
}

static void enter_meeting(ledger *book, const ledger_request *request, const uint32_t *after)
{
    ledger_hub *hub = &book->hub[request->hub];
    int blocks = kind_of(after, request->hub) == MEMORY;

    if (request->side == PUT) {
        hub->put[hub->puts++] = request->word;
        if (blocks)
            enter_block(hub, request->word, UINT32_MAX); /* one less */
    } else if (request->side == GET) {
        hub->got[hub->gets++] = task_message(after, request->task);
        if (blocks)
            enter_block(hub, task_message(after, request->task), 1);
    } else {
        hub->wipes++;
    }
}

/* What one call met: the caller's request, and those that waited. */
typedef struct {
    const ledger_request *of_caller; /* or NULL */
    const ledger_request *of_waiter[TASKS];
    size_t waiters;
} meetings;

/* A put met in the same call as a get comes before it in order of meeting. Only
 * Stop, which is no request, meets waiters without the caller. */
static const char *enter_meetings(ledger *book, const meetings *met, const uint32_t *call,
                                  const uint32_t *after)
{
    if (met->waiters > 0 && met->of_caller == NULL && call[C_SERVICE] != STOP)
        return "a waiter was met but not the caller";
    for (uint32_t side = PUT; side <= WIPE; side++) {
        if (met->of_caller != NULL && met->of_caller->side == side)
            enter_meeting(book, met->of_caller, after);
        for (size_t i = 0; i < met->waiters; i++)
            if (met->of_waiter[i]->side == side)
                enter_meeting(book, met->of_waiter[i], after);
    }
    return NULL;
}

/* What a Board shows after the call, whatever its record and store say. A hub is added
 * once between two Blanks, and ledger_begin left it without a word. */
static void enter_board(ledger *book, const uint32_t *before, const uint32_t *call)
{
    if (call[C_SERVICE] != HUB_REQUEST || kind_of(before, call[C_TARGET]) != BOARD)
        return;
    if (call[C_SIDE] == PUT) {
        book->hub[call[C_TARGET]].written = 1;
        book->hub[call[C_TARGET]].shown = sent(call);
    } else if (call[C_SIDE] == WIPE) {
        book->hub[call[C_TARGET]].written = 0;
    }
}

/* "Every met read bears the word of the last update up to its meeting, with no wipe
 * between": what the Board shows after the call that met it, and then it shows one. */
static const char *read_right(const ledger *book, const ledger_request *request,
                              const uint32_t *after)
{
    const ledger_hub *hub = &book->hub[request->hub];

    if (kind_of(after, request->hub) != BOARD || request->side != GET)
        return NULL;
    if (!hub->written)
        return "Board: a read was met though no word was there";
    return task_message(after, request->task) == hub->shown
               ? NULL
               : "Board: a met read doesn't bear the last update's word";
}

static const char *reads_right(const ledger *book, const meetings *met, const uint32_t *after)
{
    const char *wrong = met->of_caller != NULL ? read_right(book, met->of_caller, after) : NULL;

    for (size_t i = 0; i < met->waiters && wrong == NULL; i++)
        wrong = read_right(book, met->of_waiter[i], after);
    return wrong;
}

static void enter_removed(ledger *book, const uint32_t *before, const uint32_t *call,
                          second_reply reply)
{
    for (uint32_t hub = 0; hub < before[HUBS_IN_USE_AT]; hub++)
        book->hub[hub].owners_removed += (uint32_t)stop_removes_owner(before, call, reply, hub);
}

/* "Only not now holds back a get, and that exactly when no block is free": then it waits, or
 * FAILs under NW; else it takes the lowest. */
static const char *get_right(const ledger_hub *hub, const ledger_request *request,
                             uint32_t blocks, const uint32_t *call, const uint32_t *after)
{
    uint32_t lowest = 0;

    while (lowest < blocks && hub->out[lowest] != 0)
        lowest++;
    if (lowest == blocks && request->class == IS_MET)
        return "Memory: a get is met though no block is free";
    if (lowest == blocks)
        return (request->class == IS_WAITING) == (call[C_MODE] != NW)
                   ? NULL
                   : "Memory: a get is held back, and not by not now";
    if (request->class != IS_MET)
        return "Memory: a get is held back though a block is free";
    return task_message(after, request->task) == lowest
               ? NULL
               : "Memory: a get doesn't take the lowest free block";
}

/* "A number not out is FAIL in every mode"; else the put is met. */
static const char *put_right(const ledger_hub *hub, const ledger_request *request,
                             uint32_t blocks)
{
    int out = request->word < blocks && hub->out[request->word] == 1;

    if (request->class == IS_WAITING)
        return "Memory: a put waits";
    if ((request->class == IS_MET) != out)
        return out ? "Memory: a put of a block that is out isn't met"
                   : "Memory: a put of a number that isn't out is met";
    return NULL;
}

/* Of the call's own request, before its meetings are entered: so which blocks are out is
 * known from the meetings before it alone. */
static const char *blocks_right(const ledger *book, const uint32_t *before, const uint32_t *call,
                                const uint32_t *after)
{
    if (call[C_SERVICE] != HUB_REQUEST || kind_of(before, call[C_TARGET]) != MEMORY)
        return NULL;
    const ledger_request *request = &book->request[book->requests - 1];
    const ledger_hub *hub = &book->hub[call[C_TARGET]];
    uint32_t blocks = before[hub_place(before, call[C_TARGET]) + H_LIMIT];
    return request->side == GET ? get_right(hub, request, blocks, call, after)
                                : put_right(hub, request, blocks);
}

/* A get that waits is held back, too: no block is free. */
static const char *getters_right(const ledger *book, const uint32_t *after)
{
    for (uint32_t task = 0; task < after[TASKS_IN_USE_AT]; task++) {
        const ledger_request *request = book->open[task];
        if (request == NULL || kind_of(after, request->hub) != MEMORY)
            continue;
        for (uint32_t block = 0; block < after[hub_place(after, request->hub) + H_LIMIT]; block++)
            if (book->hub[request->hub].out[block] == 0)
                return "Memory: a get waits though a block is free";
    }
    return NULL;
}

/* Per block: met gets that received it less met puts of it is its mark. So no block is out
 * twice, and met gets less met puts is how many are out, which leaves the count free. */
static int memory_adds_up(const ledger_hub *hub, const uint32_t *table, uint32_t number)
{
    const uint32_t *record = table + hub_place(table, number);
    uint32_t out = 0;

    for (uint32_t block = 0; block < BLOCKS_MAX; block++) {
        if (message_at(table, held_place(table, number, block)) != hub->out[block] ||
            hub->out[block] > (block < record[H_LIMIT]))
            return 0;
        out += hub->out[block];
    }
    return hub->gets - hub->puts == out && record[H_LIMIT] - record[H_COUNT] == out;
}

/* The same from the words of all meetings, once more. */
static int blocks_again(const ledger_hub *hub)
{
    uint32_t out[BLOCKS_MAX] = {0};

    for (uint32_t i = 0; i < hub->gets; i++)
        out[hub->got[i] % BLOCKS_MAX]++;
    for (uint32_t i = 0; i < hub->puts; i++)
        out[hub->put[i] % BLOCKS_MAX]--;
    return memcmp(out, hub->out, sizeof out) == 0;
}

static int messages_equal(const uint64_t *a, const uint64_t *b, uint32_t count)
{
    return memcmp(a, b, count * sizeof *a) == 0;
}

/* The messages that the hub holds, oldest first. */
static int store_is(const uint32_t *table, uint32_t hub, const uint64_t *messages, uint32_t count)
{
    for (uint32_t i = 0; i < count; i++)
        if (message_at(table, held_place(table, hub, i)) != messages[i])
            return 0;
    return 1;
}

/* From word `since` of what was got: earlier ones were compared before. */
static const char *hub_adds_up(const ledger_hub *hub, const uint32_t *table, uint32_t number,
                               uint32_t since)
{
    const uint32_t *record = table + hub_place(table, number);
    uint32_t count = record[H_COUNT], from = since < hub->gets ? since : hub->gets;

    switch (record[H_KIND]) {
    case EVENT:
        return hub->puts - hub->gets == count ? NULL : "Event: met puts - met gets isn't the count";
    case SEMAPHORE:
        return record[H_START] + hub->puts - hub->gets == count
                   ? NULL
                   : "Semaphore: start + met puts - met gets isn't the count";
    case PORT:
        return hub->puts == hub->gets &&
                       messages_equal(hub->put + from, hub->got + from, hub->gets - from)
                   ? NULL
                   : "Port: words of met puts aren't those of met gets";
    case FIFO:
        return hub->puts == hub->gets + count &&
                       messages_equal(hub->put + from, hub->got + from, hub->gets - from) &&
                       store_is(table, number, hub->put + hub->gets, count)
                   ? NULL
                   : "FIFO: words of met puts aren't those of met gets and those held";
    case BOARD: /* a read takes nothing, so nothing adds up: reads_right has the words */
        return NULL;
    case MEMORY:
        return memory_adds_up(hub, table, number)
                   ? NULL
                   : "Memory: a block's met gets - met puts isn't its mark, or the count is wrong";
    default:
        return hub->gets - hub->puts - hub->owners_removed == (count != 0)
                   ? NULL
                   : "Resource: met locks - met unlocks - owners removed isn't 1 owned, 0 free";
    }
}

/* ---- The book ---------------------------------------------------------- */

/* Follows the task's request, or enters the caller's; what turned met is added. */
static const char *enter_task(ledger *book, uint32_t task, const uint32_t *before,
                              const uint32_t *call, second_reply reply, const uint32_t *after,
                              meetings *met)
{
    const ledger_request *was = book->open[task], *made = &book->request[book->requests];
    const char *wrong;

    if (was != NULL) {
        if ((wrong = follow_waiter(book, task, before, call, reply, after)) != NULL)
            return wrong;
        if (was->class == IS_MET)
            met->of_waiter[met->waiters++] = was;
    } else if (call[C_SERVICE] == HUB_REQUEST && call[C_CALLER] == task) {
        if ((wrong = enter_request(book, call, reply, after)) != NULL)
            return wrong;
        met->of_caller = made->class == IS_MET ? made : NULL;
    }
    if (waits(after, task) != (book->open[task] != NULL))
        return "tasks in state 3 aren't the waiting requests, one each";
    return NULL;
}

const char *ledger_enter(ledger *book, const uint32_t *before, const uint32_t call[8],
                         second_reply reply, const uint32_t *after)
{
    meetings met = {NULL, {NULL}, 0};
    const char *wrong;

    if (reply.refusal != ACCEPTED)
        return memcmp(before, after, layout_of(before)->words * sizeof *before) == 0
                   ? NULL
                   : "a refused call changed the table";
    if (call[C_SERVICE] == BLANK) {
        ledger_begin(book);
        return NULL;
    }
    if ((wrong = ledger_urgency(after, reply.next)) != NULL)
        return wrong;

    for (uint32_t task = 0; task < after[TASKS_IN_USE_AT]; task++)
        if ((wrong = enter_task(book, task, before, call, reply, after, &met)) != NULL)
            return wrong;
    if ((wrong = blocks_right(book, before, call, after)) != NULL)
        return wrong;
    if ((wrong = enter_meetings(book, &met, call, after)) != NULL)
        return wrong;
    enter_board(book, before, call);
    if ((wrong = reads_right(book, &met, after)) != NULL)
        return wrong;
    if ((wrong = getters_right(book, after)) != NULL)
        return wrong;
    enter_removed(book, before, call, reply);
    for (uint32_t hub = 0; hub < after[HUBS_IN_USE_AT]; hub++)
        if ((wrong = hub_adds_up(&book->hub[hub], after, hub,
                                 book->hub[hub].gets > 0 ? book->hub[hub].gets - 1 : 0)) != NULL)
            return wrong;
    return NULL;
}

/* Nothing happens to a request in a move: whoever waits waits on, as called, and nobody
 * else does; every hub's balance holds in the new table. */
const char *ledger_move(const ledger *book, const uint32_t *before, const uint32_t *after)
{
    const char *wrong;

    if (layout_of(before) == layout_of(after))
        return "a move left the edition";
    if (before[TASKS_IN_USE_AT] != after[TASKS_IN_USE_AT] ||
        before[HUBS_IN_USE_AT] != after[HUBS_IN_USE_AT])
        return "a move changed how many tasks or hubs there are";
    for (uint32_t task = 0; task < after[TASKS_IN_USE_AT]; task++) {
        const ledger_request *request = book->open[task];
        if (waits(after, task) != (request != NULL))
            return "after a move the tasks in state 3 aren't the waiting requests";
        if (request != NULL && !still_shown(request, after))
            return "a move changed a waiting request";
        if (task_word(before, task, T_ANSWER) != task_word(after, task, T_ANSWER) ||
            task_message(before, task) != task_message(after, task))
            return "a move changed an answer or a message received";
    }
    for (uint32_t hub = 0; hub < after[HUBS_IN_USE_AT]; hub++) {
        const ledger_hub *of = &book->hub[hub];
        if ((wrong = hub_adds_up(of, after, hub, 0)) != NULL)
            return wrong;
        if (kind_of(after, hub) == BOARD &&
            (after[hub_place(after, hub) + H_COUNT] != (uint32_t)of->written ||
             (of->written && !store_is(after, hub, &of->shown, 1))))
            return "Board: after a move it shows another word";
    }
    return NULL;
}

const char *ledger_end(const ledger *book, const uint32_t *table)
{
    uint32_t met[HUBS][WIPE + 1] = {{0}}, waiting = 0;
    const char *wrong;

    for (size_t i = 0; i < book->requests; i++) {
        const ledger_request *request = &book->request[i];
        met[request->hub][request->side] += request->class == IS_MET;
        waiting += request->class == IS_WAITING;
        if (request->class == IS_WAITING && book->open[request->task] != request)
            return "a request waits without its task";
    }
    for (uint32_t task = 0; task < table[TASKS_IN_USE_AT]; task++)
        waiting -= waits(table, task);
    if (waiting != 0)
        return "waiting requests aren't the tasks in state 3";
    for (uint32_t hub = 0; hub < table[HUBS_IN_USE_AT]; hub++) {
        if (met[hub][PUT] != book->hub[hub].puts || met[hub][GET] != book->hub[hub].gets ||
            met[hub][WIPE] != book->hub[hub].wipes)
            return "met requests don't add up again";
        if ((wrong = hub_adds_up(&book->hub[hub], table, hub, 0)) != NULL)
            return wrong;
        if (kind_of(table, hub) == MEMORY && !blocks_again(&book->hub[hub]))
            return "Memory: the blocks of the meetings don't add up again";
    }
    return NULL;
}
