/* The tests' own working-out of document 01 and requests M-100, M-101 and M-103 to M-108;
 * expect.h says how it differs. */
#include "expect.h"

#include <stdio.h>
#include <string.h>

#include "numbers.h"

/* ---- The words of either edition --------------------------------------- */

/* Low and high stay apart here, and travel together. */
typedef struct {
    uint32_t low, high;
} pair;

static int is_zero(pair word) { return word.low == 0 && word.high == 0; }

typedef struct {
    uint32_t state, suspended, priority, hub, ticks, side;
    pair word;
    uint32_t answer;
} written_task;

/* A table laid out wide, whatever its edition: edition 1's high words are 0. */
typedef struct {
    uint32_t contents[8];
    written_task task[16];
    uint32_t hub[16][4];
    uint32_t ready[16];
    uint32_t list[16][16];
    pair store[16][8];
} wide;

/* Takes the table's words one after the other, as the papers' list of words goes. */
static void lay_wide(wide *w, const uint32_t *table, size_t words)
{
    const uint32_t *at = table;
    int two = words == 744;

    memcpy(w->contents, at, 32);
    at += 8;
    for (int i = 0; i < 16; i++) {
        written_task *t = &w->task[i];
        t->state = *at++;
        t->suspended = *at++;
        t->priority = *at++;
        t->hub = *at++;
        t->ticks = *at++;
        t->side = *at++;
        t->word.low = *at++;
        t->word.high = two ? *at++ : 0;
        t->answer = *at++;
    }
    memcpy(w->hub, at, 256);
    at += 64;
    memcpy(w->ready, at, 64);
    at += 16;
    memcpy(w->list, at, 1024);
    at += 256;
    for (int i = 0; i < 128; i++) {
        w->store[i / 8][i % 8].low = *at++;
        w->store[i / 8][i % 8].high = two ? *at++ : 0;
    }
}

/* The other way; high words that edition 1 has no place for are dropped. */
static void lay_words(const wide *w, uint32_t *table, size_t words)
{
    uint32_t *at = table;
    int two = words == 744;

    memcpy(at, w->contents, 32);
    at += 8;
    for (int i = 0; i < 16; i++) {
        const written_task *t = &w->task[i];
        *at++ = t->state;
        *at++ = t->suspended;
        *at++ = t->priority;
        *at++ = t->hub;
        *at++ = t->ticks;
        *at++ = t->side;
        *at++ = t->word.low;
        if (two)
            *at++ = t->word.high;
        *at++ = t->answer;
    }
    memcpy(at, w->hub, 256);
    at += 64;
    memcpy(at, w->ready, 64);
    at += 16;
    memcpy(at, w->list, 1024);
    at += 256;
    for (int i = 0; i < 128; i++) {
        *at++ = w->store[i / 8][i % 8].low;
        if (two)
            *at++ = w->store[i / 8][i % 8].high;
    }
}

/* ---- Effective priorities ---------------------------------------------- */

/* Who waits for whom, directly at first: waits[j][i] when j waits for a Resource of i. */
typedef struct {
    uint32_t tasks, own[16];
    uint8_t waits[16][16];
} relation;

/* "Directly or through others": whoever waits for k waits for whom k waits for, with one
 * task after the other as k. A ring makes a task wait for itself, and that ends it. */
static void through_others(relation *r)
{
    for (uint32_t k = 0; k < r->tasks; k++)
        for (uint32_t j = 0; j < r->tasks; j++)
            for (uint32_t i = 0; i < r->tasks && r->waits[j][k]; i++)
                r->waits[j][i] |= r->waits[k][i];
}

/* "The smallest own priority among itself and all tasks that wait ... for a Resource it
 * owns", of each task. */
static void effective(relation *r, uint32_t *priorities)
{
    through_others(r);
    for (uint32_t i = 0; i < r->tasks; i++) {
        priorities[i] = r->own[i];
        for (uint32_t j = 0; j < r->tasks; j++)
            if (r->waits[j][i] && r->own[j] < priorities[i])
                priorities[i] = r->own[j];
    }
}

/* ---- Well formed, sentence by sentence --------------------------------- */

static const uint32_t contents_of[2][8] = {
    {1, 0, 0, 8, 136, 200, 216, 472},
    {2, 0, 0, 8, 152, 216, 232, 488},
};

static int all_zero(const void *words, size_t bytes)
{
    const uint32_t *word = words;

    for (size_t i = 0; i < bytes / 4; i++)
        if (word[i] != 0)
            return 0;
    return 1;
}

/* "Records 0 to T-1 and 0 to H-1 are in use ... Everything unused is 0", "a contents
 * edition that doesn't fit the length is 2". */
static int contents_hold(const wide *w, size_t words)
{
    const uint32_t *right = contents_of[words == 744], *c = w->contents;

    if (c[0] != right[0] || c[1] > 16 || c[2] > 16 || memcmp(c + 3, right + 3, 20) != 0)
        return 0;
    for (uint32_t i = 0; i < 16; i++) {
        if (i >= c[1] && !all_zero(&w->task[i], sizeof w->task[i]))
            return 0;
        if (i >= c[2] && !(all_zero(w->hub[i], 16) && all_zero(w->list[i], 64) &&
                           all_zero(w->store[i], 64)))
            return 0;
    }
    return 1;
}

static int task_holds(const wide *w, const written_task *t)
{
    if (t->state < 1 || t->state > 4 || t->suspended > 1 || t->priority > 255 ||
        t->ticks > 1000000 || t->side > 2 || t->answer > 3)
        return 0;
    if (t->state == 1)
        return !t->suspended && !t->hub && !t->ticks && !t->side && is_zero(t->word) && !t->answer;
    if (t->state == 2)
        return !t->hub && !t->ticks && !t->side && (is_zero(t->word) || t->answer == 1);
    if (t->state == 4)
        return !t->hub && !t->side && is_zero(t->word) && !t->answer && t->ticks >= 1;
    if (t->hub < 1 || t->hub > w->contents[2] || t->side == 0 || t->answer != 0)
        return 0;
    uint32_t kind = w->hub[t->hub - 1][0];
    return is_zero(t->word) || (t->side == 1 && (kind == 3 || kind == 4));
}

/* Of a table whose records hold. */
static void effective_of_wide(const wide *w, uint32_t *priorities)
{
    relation r = {w->contents[1], {0}, {{0}}};

    for (uint32_t j = 0; j < r.tasks; j++) {
        const uint32_t *hub = w->task[j].state == 3 ? w->hub[w->task[j].hub - 1] : NULL;
        r.own[j] = w->task[j].priority;
        if (hub && hub[0] == 5)
            r.waits[j][hub[1] - 1] = 1;
    }
    effective(&r, priorities);
}

/* "exactly the tasks in state 2" (hub 0), or "in state 3 at that hub" (hub
 * plus 1): every task stands in the list once if it belongs there, else not
 * at all; the entries stand first; the effective priority numbers don't fall. */
static int list_holds(const wide *w, uint32_t hub, const uint32_t *priorities)
{
    const uint32_t *list = hub == 0 ? w->ready : w->list[hub - 1];
    uint32_t entries = 0;

    for (uint32_t task = 0; task < w->contents[1]; task++) {
        uint32_t times = 0;
        for (int i = 0; i < 16; i++)
            times += list[i] == task + 1;
        uint32_t belongs = hub == 0 ? w->task[task].state == 2
                                    : w->task[task].state == 3 && w->task[task].hub == hub;
        if (times != belongs)
            return 0;
        entries += times;
    }
    for (uint32_t i = 0; i < 16; i++) {
        if ((list[i] != 0) != (i < entries))
            return 0;
        if (i > 0 && i < entries && priorities[list[i - 1] - 1] > priorities[list[i] - 1])
            return 0;
    }
    return 1;
}

static int waiter_holds(const wide *w, uint32_t hub, uint32_t task)
{
    uint32_t kind = w->hub[hub][0], count = w->hub[hub][1], limit = w->hub[hub][2];

    for (uint32_t other = 0; other < w->contents[1]; other++)
        if (w->task[other].hub == hub + 1 && w->task[other].side != w->task[task].side)
            return 0;
    if (kind == 3)
        return 1;
    if (w->task[task].side == 1)
        return kind < 5 && count == limit;
    if (kind == 5)
        return count != 0 && w->task[count - 1].hub != hub + 1;
    return count == 0;
}

/* "A table whose Resource owner is inactive is now not well formed." */
static int owner_holds(const wide *w, uint32_t hub)
{
    for (uint32_t task = 0; task < w->contents[1]; task++)
        if (w->task[task].state == 1 && w->hub[hub][1] == task + 1)
            return 0;
    return 1;
}

/* "The store's low words mark block i with 1 when it is out, the rest 0": how many of a
 * Memory's blocks have a 0, or more than there can be where something else stands. */
static uint32_t free_blocks(const wide *w, uint32_t hub)
{
    uint32_t free = 0;

    for (uint32_t block = 0; block < 8 && block < w->hub[hub][2]; block++) {
        const pair *mark = &w->store[hub][block];
        free += is_zero(*mark) ? 1 : mark->low == 1 && mark->high == 0 ? 0 : 100;
    }
    return free;
}

/* "A FIFO's store holds its words ... Other stores are 0", and of a Board: "count 1
 * when written, the word in its store's first place, else count and store 0". */
static int store_holds(const wide *w, uint32_t hub)
{
    uint32_t kind = w->hub[hub][0], count = w->hub[hub][1], limit = w->hub[hub][2];
    uint32_t most = kind == 4 ? count : kind == 6 && count == 1 ? 1 : kind == 7 ? limit : 0;

    for (uint32_t i = 0; i < 8; i++)
        if (!is_zero(w->store[hub][i]) && i >= most)
            return 0;
    return kind != 7 || free_blocks(w, hub) == count;
}

static int hub_holds(const wide *w, uint32_t hub)
{
    uint32_t kind = w->hub[hub][0], count = w->hub[hub][1];
    uint32_t limit = w->hub[hub][2], start = w->hub[hub][3];
    int right = (kind == 1 && count <= 1 && limit == 1 && start == 0) ||
                (kind == 2 && count <= limit && limit >= 1 && limit <= 65535 && start <= limit) ||
                (kind == 3 && count == 0 && limit == 0 && start == 0) ||
                (kind == 4 && count <= limit && limit >= 1 && limit <= 8 && start == 0) ||
                (kind == 5 && count <= w->contents[1] && limit == 1 && start == 0 &&
                 owner_holds(w, hub)) ||
                (kind == 6 && count <= 1 && limit == 1 && start == 0) ||
                (kind == 7 && count <= limit && limit >= 1 && limit <= 8 && start == limit);

    if (!right || !store_holds(w, hub))
        return 0;
    for (uint32_t task = 0; task < w->contents[1]; task++)
        if (w->task[task].hub == hub + 1 && !waiter_holds(w, hub, task))
            return 0;
    return 1;
}

static int wide_holds(const wide *w, size_t words)
{
    int holds = contents_hold(w, words);
    uint32_t priorities[16];

    for (uint32_t task = 0; holds && task < w->contents[1]; task++)
        holds = task_holds(w, &w->task[task]);
    for (uint32_t hub = 0; holds && hub < w->contents[2]; hub++)
        holds = hub_holds(w, hub);
    if (holds)
        effective_of_wide(w, priorities);
    for (uint32_t list = 0; holds && list <= w->contents[2]; list++)
        holds = list_holds(w, list, priorities);
    return holds;
}

int expect_well_formed(const uint32_t *table, size_t words)
{
    wide w;

    lay_wide(&w, table, words);
    return wide_holds(&w, words);
}

/* ---- The table as things ----------------------------------------------- */

typedef struct {
    uint32_t state, suspended, priority, hub, ticks, side;
    pair word;
    uint32_t answer;
    uint32_t rank; /* among equals of its list: less stands before */
} thing_task;

typedef struct {
    uint32_t kind, count, limit, start;
    pair held[9]; /* one more than a FIFO holds, so a word may come before one goes */
} thing_hub;

static const pair nothing = {0, 0};

typedef struct {
    uint32_t tasks, hubs, joined;
    thing_task task[16];
    thing_hub hub[16];
    uint32_t urgency[16]; /* what tasks are sorted by: effective priorities as they were last */
} world;

static void effective_of_world(const world *w, uint32_t *priorities)
{
    relation r = {w->tasks, {0}, {{0}}};

    for (uint32_t j = 0; j < w->tasks; j++) {
        const thing_hub *awaited = w->task[j].hub != 0 ? &w->hub[w->task[j].hub - 1] : NULL;
        r.own[j] = w->task[j].priority;
        if (awaited && awaited->kind == RESOURCE)
            r.waits[j][awaited->count - 1] = 1;
    }
    effective(&r, priorities);
}

/* Of a well-formed table. */
static void read_world(world *w, const uint32_t *table, size_t words)
{
    wide from;

    lay_wide(&from, table, words);
    memset(w, 0, sizeof *w);
    w->tasks = from.contents[1];
    w->hubs = from.contents[2];
    for (uint32_t i = 0; i < w->tasks; i++) {
        const written_task *t = &from.task[i];
        w->task[i] = (thing_task){t->state, t->suspended, t->priority, t->hub,
                                  t->ticks, t->side,      t->word,     t->answer, 0};
    }
    for (uint32_t i = 0; i < w->hubs; i++) {
        memcpy(&w->hub[i], from.hub[i], 16);
        memcpy(w->hub[i].held, from.store[i], 64);
    }
    for (uint32_t i = 0; i < 16; i++) {
        if (from.ready[i] != 0)
            w->task[from.ready[i] - 1].rank = i;
        for (uint32_t hub = 0; hub < w->hubs; hub++)
            if (from.list[hub][i] != 0)
                w->task[from.list[hub][i] - 1].rank = i;
    }
    w->joined = 16;
    effective_of_world(w, w->urgency);
}

static int stands_before(const world *w, const thing_task *a, const thing_task *b)
{
    uint32_t of_a = w->urgency[a - w->task], of_b = w->urgency[b - w->task];

    return of_a != of_b ? of_a < of_b : a->rank < b->rank;
}

/* First of the tasks in this state at this hub that stands behind `after`. */
static thing_task *following(world *w, uint32_t state, uint32_t hub, const thing_task *after)
{
    thing_task *first = NULL;

    for (uint32_t i = 0; i < w->tasks; i++) {
        thing_task *t = &w->task[i];
        if (t->state == state && t->hub == hub && (!after || stands_before(w, after, t)) &&
            (!first || stands_before(w, t, first)))
            first = t;
    }
    return first;
}

static void write_list(world *w, uint32_t *list, uint32_t state, uint32_t hub)
{
    for (thing_task *t = following(w, state, hub, NULL); t; t = following(w, state, hub, t))
        *list++ = (uint32_t)(t - w->task) + 1;
}

static void write_world(world *w, uint32_t *table, size_t words)
{
    wide to;

    memset(&to, 0, sizeof to);
    memcpy(to.contents, contents_of[words == 744], 32);
    to.contents[1] = w->tasks;
    to.contents[2] = w->hubs;
    for (uint32_t i = 0; i < w->tasks; i++) {
        const thing_task *t = &w->task[i];
        to.task[i] = (written_task){t->state, t->suspended, t->priority, t->hub,
                                    t->ticks, t->side,      t->word,     t->answer};
    }
    write_list(w, to.ready, READY, 0);
    for (uint32_t i = 0; i < w->hubs; i++) {
        memcpy(to.hub[i], &w->hub[i], 16);
        memcpy(to.store[i], w->hub[i].held, 64);
        write_list(w, to.list[i], WAITING, i + 1);
    }
    lay_words(&to, table, words);
}

static uint32_t next_of(world *w)
{
    thing_task *t = following(w, READY, 0, NULL);
    while (t && t->suspended)
        t = following(w, READY, 0, t);
    return t ? (uint32_t)(t - w->task) + 1 : 0;
}

uint32_t expect_next(const uint32_t *table, size_t words)
{
    world w;
    read_world(&w, table, words);
    return next_of(&w);
}

/* ---- Refusals ---------------------------------------------------------- */

static int hub_may_be_added(uint32_t kind, uint32_t limit, uint32_t start)
{
    return (kind == 1 && limit == 1 && start == 0) ||
           (kind == 2 && limit - 1 < 65535 && start <= limit) ||
           (kind == 3 && limit == 0 && start == 0) ||
           (kind == 4 && limit - 1 < 8 && start == 0) ||
           ((kind == 5 || kind == 6) && limit == 1 && start == 0) ||
           (kind == 7 && limit - 1 < 8 && start == limit);
}

/* Of a hub request the hub is in use. */
static int argument_wrong(const wide *w, const uint32_t *call)
{
    uint32_t target = call[2], side = call[3], mode = call[4], ticks = call[5];
    int ticks_wrong = ticks - 1 >= 1000000;

    switch (call[0]) {
    case 1:
        return side - 1 >= (w->hub[target][0] == 6 ? 3 : 2) || mode - 1 > 2 ||
               (mode == 3 ? ticks_wrong : ticks != 0) || (w->contents[0] == 1 && call[7] > 0);
    case 7:
        return ticks_wrong;
    case 9:
        return target > 255 || side > 1;
    case 10:
        return !hub_may_be_added(target, ticks, call[6]);
    default:
        return 0;
    }
}

uint32_t expect_refusal(const uint32_t *table, size_t words, const uint32_t call[8])
{
    uint32_t service = call[0];
    wide w;

    if (words != 600 && words != 744)
        return 1;
    if (service == 0)
        return 0;
    lay_wide(&w, table, words);
    if (!wide_holds(&w, words))
        return 2;
    if (service > 10)
        return 3;
    if (service <= 7 && (uint64_t)call[1] + 1 != expect_next(table, words))
        return 4;
    if (service == 1 && call[2] >= w.contents[2])
        return 5;
    if (service >= 2 && service <= 5 && call[2] >= w.contents[1])
        return 5;
    if (argument_wrong(&w, call))
        return 6;
    if ((service == 9 && w.contents[1] == 16) || (service == 10 && w.contents[2] == 16))
        return 7;
    return 0;
}

/* ---- Calls ------------------------------------------------------------- */

static void to_ready(world *w, thing_task *t, uint32_t answer, pair word)
{
    *t = (thing_task){READY, t->suspended, t->priority, 0, 0, 0, word, answer, w->joined++};
}

static pair fifo_take(thing_hub *h)
{
    pair oldest = h->held[0];
    for (int i = 0; i < 8; i++)
        h->held[i] = h->held[i + 1];
    h->held[8] = nothing;
    h->count--;
    return oldest;
}

/* The block that a put names by its message is one of the Memory's, and out. */
static int names_block(const thing_hub *h, const uint32_t *call)
{
    for (uint32_t block = 0; block < h->limit; block++)
        if (call[6] == block && call[7] == 0)
            return !is_zero(h->held[block]);
    return 0;
}

/* Can the request be met, and if it meets a waiter, which one is it? */
static int is_met(world *w, const thing_hub *h, const uint32_t *call, thing_task **other)
{
    uint32_t caller = call[1], side = call[3];
    thing_task *first = following(w, WAITING, (uint32_t)(h - w->hub) + 1, NULL);

    *other = first && first->side != side ? first : NULL;
    switch (h->kind) {
    case RESOURCE:
        return side == PUT ? h->count == caller + 1 : h->count == 0;
    case PORT:
        return *other != NULL;
    case BOARD:
        *other = NULL; /* nobody alone: show_board tells all who wait */
        return side != GET || h->count > 0;
    case MEMORY:
        return side == PUT ? names_block(h, call) : h->count > 0;
    default:
        return *other != NULL || (side == PUT ? h->count < h->limit : h->count > 0);
    }
}

/* Somebody takes the first block without a mark, and there is one; gives its number. */
static pair lowest_taken(thing_hub *h)
{
    pair block = nothing;

    while (!is_zero(h->held[block.low]))
        block.low++;
    h->held[block.low].low = 1;
    return block;
}

/* Both sides of a met request as puts and gets on the hub, put first: a full
 * FIFO holds nine words for a moment, an empty one one. Gives the word got. */
static pair meet(world *w, thing_hub *h, const uint32_t *call, const thing_task *other)
{
    int puts = (call[3] == PUT) + (other && other->side == PUT);
    int gets = (call[3] == GET) + (other && other->side == GET);
    pair word = call[3] == PUT ? (pair){call[6], call[7]} : other ? other->word : nothing;

    switch (h->kind) {
    case EVENT:
    case SEMAPHORE:
        h->count += (uint32_t)(puts - gets);
        return nothing;
    case PORT:
        return word;
    case FIFO:
        if (puts)
            h->held[h->count++] = word;
        return gets ? fifo_take(h) : nothing;
    case BOARD:
        if (call[3] != GET) { /* a new word wipes the old one, too */
            h->count = 0;
            h->held[0] = nothing;
        }
        if (call[3] == PUT)
            h->held[h->count++] = word;
        return h->held[0];
    case MEMORY: /* the block is free for a moment where somebody waits for one */
        if (puts)
            h->held[word.low] = nothing;
        h->count += (uint32_t)(puts - gets);
        return gets ? lowest_taken(h) : nothing;
    default:
        h->count = call[3] == GET ? call[1] + 1 : other ? (uint32_t)(other - w->task) + 1 : 0;
        return nothing;
    }
}

/* Nobody waits at a Board that has a word: whoever stands first reads it, until
 * nobody is left. */
static void show_board(world *w, const thing_hub *h)
{
    thing_task *reader;

    while (h->kind == BOARD && h->count > 0 &&
           (reader = following(w, WAITING, (uint32_t)(h - w->hub) + 1, NULL)) != NULL)
        to_ready(w, reader, OK, h->held[0]);
}

/* FAIL in every mode: unlocked by another than the owner, or locked by it; a block put that
 * isn't out. */
static int fails(const thing_hub *h, const uint32_t *call)
{
    return (h->kind == RESOURCE && (call[3] == PUT || h->count == call[1] + 1)) ||
           (h->kind == MEMORY && call[3] == PUT);
}

static void hub_request(world *w, const uint32_t *call)
{
    thing_task *c = &w->task[call[1]], *other;
    thing_hub *h = &w->hub[call[2]];

    if (is_met(w, h, call, &other)) {
        pair got = meet(w, h, call, other);
        c->answer = OK;
        c->word = call[3] == GET ? got : nothing;
        if (other)
            to_ready(w, other, OK, other->side == GET ? got : nothing);
        show_board(w, h);
    } else if (call[4] == NW || fails(h, call)) {
        c->answer = FAIL;
        c->word = nothing;
    } else {
        int keeps = call[3] == PUT && (h->kind == PORT || h->kind == FIFO);
        pair kept = keeps ? (pair){call[6], call[7]} : nothing;
        *c = (thing_task){WAITING, c->suspended, c->priority, call[2] + 1, call[5], call[3],
                          kept, 0, w->joined++};
    }
}

/* Who waits longest among the most urgent owns the Resource next, or nobody. */
static void pass_locks(world *w, uint32_t stopped)
{
    for (thing_hub *h = w->hub; h < w->hub + w->hubs; h++) {
        thing_task *heir = following(w, WAITING, (uint32_t)(h - w->hub) + 1, NULL);
        if (h->kind != RESOURCE || h->count != stopped + 1)
            continue;
        h->count = 0;
        if (heir) {
            h->count = (uint32_t)(heir - w->task) + 1;
            to_ready(w, heir, OK, nothing);
        }
    }
}

static void on_task(world *w, const uint32_t *call)
{
    thing_task *c = &w->task[call[1]], *t = &w->task[call[2]];
    int done = 0;

    if (call[0] == START && (done = t->state == INACTIVE))
        to_ready(w, t, 0, nothing);
    if (call[0] == STOP && (done = t->state != INACTIVE && t != c)) {
        *t = (thing_task){INACTIVE, 0, t->priority, 0, 0, 0, nothing, 0, 0};
        pass_locks(w, call[2]);
    }
    if (call[0] == SUSPEND && (done = t->state != INACTIVE && t->suspended == 0 && t != c))
        t->suspended = 1;
    if (call[0] == RESUME && (done = t->suspended == 1))
        t->suspended = 0;
    c->answer = done ? OK : FAIL;
    c->word = nothing;
}

static void tick(world *w)
{
    for (uint32_t i = 0; i < w->tasks; i++) {
        thing_task *t = &w->task[i];
        if ((t->state == WAITING || t->state == SLEEPING) && t->ticks > 0 && --t->ticks == 0)
            to_ready(w, t, TO, nothing);
    }
}

static void serve(world *w, const uint32_t *call)
{
    thing_task *c = &w->task[call[1] % 16]; /* named by 1 to 7 only, and then below 16 */

    switch (call[0]) {
    case 1:
        hub_request(w, call);
        break;
    case 6:
        c->rank = w->joined++;
        c->answer = OK;
        c->word = nothing;
        break;
    case 7:
        *c = (thing_task){SLEEPING, c->suspended, c->priority, 0, call[5], 0, nothing, 0, 0};
        break;
    case 8:
        tick(w);
        break;
    case 9:
        w->task[w->tasks].priority = w->urgency[w->tasks] = call[2];
        w->task[w->tasks].state = INACTIVE;
        if (call[3] == 1)
            to_ready(w, &w->task[w->tasks], 0, nothing);
        w->tasks++;
        break;
    case 10:
        w->hub[w->hubs++] = (thing_hub){call[2], call[6], call[5], call[6], {{0, 0}}};
        break;
    default:
        on_task(w, call);
        break;
    }
}

/* "All tasks whose effective priority changed are taken out of their lists, then put back
 * behind their equals in task number order": they come last of all, one after the other, so
 * last among those that they are equal to now. */
static void sort_anew(world *w)
{
    uint32_t priorities[16];

    effective_of_world(w, priorities);
    for (uint32_t i = 0; i < w->tasks; i++) {
        if (priorities[i] == w->urgency[i])
            continue;
        w->urgency[i] = priorities[i];
        w->task[i].rank = w->joined++;
    }
}

/* "How many requests stand before it in that list": those who wait at the same hub and
 * stand before it, wherever their records are. */
static uint32_t ahead_of(const world *w, const thing_task *waiter)
{
    uint32_t ahead = 0;

    for (uint32_t i = 0; i < w->tasks; i++)
        ahead += w->task[i].state == WAITING && w->task[i].hub == waiter->hub &&
                 stands_before(w, &w->task[i], waiter);
    return ahead;
}

second_reply expect_call(uint32_t *table, size_t words, const uint32_t call[8])
{
    second_reply reply = {expect_refusal(table, words, call), 0, 0, 0};
    world w;

    if (reply.refusal != 0)
        return reply;
    if (call[0] == BLANK) {
        memset(&w, 0, sizeof w);
    } else {
        read_world(&w, table, words);
        serve(&w, call);
        sort_anew(&w);
    }
    write_world(&w, table, words);
    if (call[0] >= 1 && call[0] <= 7)
        reply.answer = w.task[call[1]].answer;
    reply.next = next_of(&w);
    if (call[0] == HUB_REQUEST && w.task[call[1]].state == WAITING)
        reply.ahead = ahead_of(&w, &w.task[call[1]]);
    return reply;
}

/* ---- The moves --------------------------------------------------------- */

/* The things are the same in both editions; only how they are written differs. */
uint32_t expect_move(const uint32_t *from, size_t from_words, uint32_t *to, size_t to_words)
{
    world w;

    if (from_words + to_words != 600 + 744 || (from_words != 600 && from_words != 744))
        return 1;
    if (!expect_well_formed(from, from_words))
        return 2;
    read_world(&w, from, from_words);
    if (to_words == 600 && expect_high_words(from) > 0)
        return 9;
    write_world(&w, to, to_words);
    return 0;
}

uint32_t expect_high_words(const uint32_t table[744])
{
    uint32_t high = 0;

    for (int at = 8 + 7; at < 152; at += 9)
        high += table[at] != 0;
    for (int at = 488 + 1; at < 744; at += 2)
        high += table[at] != 0;
    return high;
}

/* ---- The comparison ---------------------------------------------------- */

/* "Refusals 1 and 2 for the first table, then for the second". */
static uint32_t unfit(const uint32_t *table, size_t words)
{
    if (words != 600 && words != 744)
        return 1;
    return expect_well_formed(table, words) ? 0 : 2;
}

/* The first of the places from `from` on where the two differ, which they do somewhere: by
 * halves, the two being alike up to `alike`, and not up to `unlike`. */
static uint32_t first_difference(const uint32_t *a, const uint32_t *b, uint32_t from,
                                 uint32_t words)
{
    uint32_t alike = from, unlike = words;

    while (unlike - alike > 1) {
        uint32_t half = alike + (unlike - alike) / 2;
        if (memcmp(a + alike, b + alike, 4 * (half - alike)) == 0)
            alike = half;
        else
            unlike = half;
    }
    return alike;
}

/* "Putting the new words into the first table must give the second": they are put in one
 * by one, until it does. Gives how many it took. */
static uint32_t mend(const uint32_t *first, const uint32_t *second, uint32_t words,
                     uint32_t entries[][3])
{
    uint32_t mended[744], count = 0, place = 0;

    memcpy(mended, first, 4 * words);
    while (memcmp(mended, second, 4 * words) != 0) {
        place = first_difference(mended, second, place, words);
        entries[count][0] = place;
        entries[count][1] = mended[place];
        entries[count++][2] = mended[place] = second[place];
    }
    return count;
}

second_compare_reply expect_compare(const uint32_t *first, size_t first_words,
                                    const uint32_t *second, size_t second_words,
                                    uint32_t *places, size_t room)
{
    uint32_t entries[744][3], count, of_first = unfit(first, first_words);
    uint32_t of_second = unfit(second, second_words);

    if (of_first != 0 || of_second != 0)
        return (second_compare_reply){of_first != 0 ? of_first : of_second, 0};
    if (first[0] != second[0]) /* both are well formed, so they say what they are */
        return (second_compare_reply){13, 0};
    count = mend(first, second, (uint32_t)first_words, entries);
    if (room / 3 < count)
        return (second_compare_reply){8, 0};
    memcpy(places, entries, count * sizeof *entries);
    return (second_compare_reply){0, count};
}

/* ---- The listing ------------------------------------------------------- */

/* How a line ends, since no line of a listing has a high word; and a line's bytes when each
 * of its numbers has one digit, its newline with them. */
#define NO_HIGH_WORD " 0\n"
enum { SHORT_LINE = 16 };

static size_t further_digits(uint32_t number)
{
    return (number > 9) + (number > 99) + (number > 999) + (number > 9999);
}

size_t expect_listing_length(const uint32_t *table, size_t words)
{
    size_t length = SHORT_LINE * (1 + (size_t)table[1] + table[2]);
    world w;

    read_world(&w, table, words);
    for (uint32_t i = 0; i < w.tasks; i++)
        length += further_digits(w.task[i].priority);
    for (uint32_t i = 0; i < w.hubs; i++)
        length += 1 + further_digits(w.hub[i].limit) + further_digits(w.hub[i].start);
    return length;
}

second_listing_reply expect_listing(const uint32_t *table, size_t words, uint8_t *text, size_t room)
{
    char lines[1024] = "0 0 0 0 0 0 0" NO_HIGH_WORD, *end = lines + SHORT_LINE;
    world w;

    if (!expect_well_formed(table, words))
        return (second_listing_reply){2, 0};
    if (room < expect_listing_length(table, words))
        return (second_listing_reply){8, 0};
    read_world(&w, table, words);
    for (uint32_t i = 0; i < w.tasks + w.hubs; i++) {
        const thing_hub *h = i < w.tasks ? NULL : &w.hub[i - w.tasks];
        if (h == NULL)
            end += sprintf(end, "9 0 %lu 0 0 0 0" NO_HIGH_WORD,
                           (unsigned long)w.task[i].priority);
        else
            end += sprintf(end, "10 0 %lu 0 0 %lu %lu" NO_HIGH_WORD, (unsigned long)h->kind,
                           (unsigned long)h->limit, (unsigned long)h->start);
    }
    memcpy(text, lines, (size_t)(end - lines));
    return (second_listing_reply){0, (uint32_t)(end - lines)};
}

void expect_stripped(const uint32_t *table, size_t words, uint32_t *stripped, size_t as_words)
{
    world w;

    read_world(&w, table, words);
    for (uint32_t i = 0; i < w.tasks; i++)
        w.task[i] = (thing_task){INACTIVE, 0, w.task[i].priority, 0, 0, 0, nothing, 0, 0};
    for (uint32_t i = 0; i < w.hubs; i++)
        w.hub[i] = (thing_hub){w.hub[i].kind, w.hub[i].start, w.hub[i].limit, w.hub[i].start,
                               {{0, 0}}};
    write_world(&w, stripped, as_words);
}

int expect_same_set_up(const uint32_t *a, const uint32_t *b, size_t words)
{
    wide of_a, of_b;

    lay_wide(&of_a, a, words);
    lay_wide(&of_b, b, words);
    int same = a[1] == b[1] && a[2] == b[2];
    for (uint32_t i = 0; same && i < a[1]; i++)
        same = of_a.task[i].priority == of_b.task[i].priority;
    for (uint32_t at = 0; same && at < 4 * a[2]; at++) /* each fourth word from 1 on is a count */
        same = at % 4 == 1 || of_a.hub[at / 4][at % 4] == of_b.hub[at / 4][at % 4];
    return same;
}
