/* The generator's draws: random numbers, calls, well-formed tables, damaged
 * tables, drill lines. gen.h says what each is for. */
#include "gen.h"

#include <stdio.h>
#include <string.h>

#include "numbers.h"
#include "second.h" /* second_clause only: what a family breaks */

enum { NOBODY = UINT32_MAX };

/* ---- Random numbers ----------------------------------------------------
 * No expression below draws twice unless ?:, && or || orders the draws: the
 * order of arguments and of the sides of = or + is the compiler's own. */

void gen_seed(gen_random *random, uint64_t seed) { random->state = seed; }

/* Steele, Lea and Flood's SplitMix64: one addition and a mix, no state that
 * goes bad, the same on every machine. */
uint32_t gen_word(gen_random *random)
{
    uint64_t z = random->state += UINT64_C(0x9E3779B97F4A7C15);
    z = (z ^ z >> 30) * UINT64_C(0xBF58476D1CE4E5B9);
    z = (z ^ z >> 27) * UINT64_C(0x94D049BB133111EB);
    return (uint32_t)(z >> 32);
}

uint32_t gen_below(gen_random *random, uint32_t bound)
{
    return (uint32_t)((uint64_t)gen_word(random) * bound >> 32);
}

int gen_chance(gen_random *random, uint32_t percent) { return gen_below(random, 100) < percent; }

static uint32_t from_to(gen_random *random, uint32_t low, uint32_t high)
{
    return low + gen_below(random, high - low + 1);
}

static uint32_t one_of(gen_random *random, size_t count, const uint32_t *values)
{
    return values[gen_below(random, (uint32_t)count)];
}

#define ONE_OF(random, ...)                                                        \
    one_of(random, sizeof((uint32_t[]){__VA_ARGS__}) / sizeof(uint32_t), \
           (uint32_t[]){__VA_ARGS__})

/* Least, just above it, the largest, or anything between. */
static uint32_t at_least(gen_random *random, uint32_t least)
{
    switch (gen_below(random, 4)) {
    case 0:
        return least;
    case 1:
        return UINT32_MAX;
    case 2:
        return least + gen_below(random, 4);
    default:
        return least + gen_below(random, UINT32_MAX - least);
    }
}

/* A word as tasks send it, the edges often. */
static uint32_t any_word(gen_random *random)
{
    return gen_chance(random, 20) ? ONE_OF(random, 0, 1, UINT32_MAX, UINT32_C(1) << 31)
                                  : gen_word(random);
}

/* A high word: none often, so that some messages have a low word only. */
static uint32_t any_high(gen_random *random)
{
    return gen_chance(random, 30) ? 0 : any_word(random);
}

/* A message as a table of this edition holds it; edition 1 draws as it did before M-105. A
 * high word without a low one comes up, too. */
static uint64_t any_message(gen_random *random, uint32_t edition)
{
    uint64_t low = any_word(random);

    if (edition == EDITION_1)
        return low;
    if (gen_chance(random, 15))
        low = 0;
    return low | (uint64_t)any_high(random) << 32;
}

/* ---- Reading the table ------------------------------------------------- */

static uint32_t tasks_in_use(const uint32_t *table) { return table[TASKS_IN_USE_AT]; }
static uint32_t hubs_in_use(const uint32_t *table) { return table[HUBS_IN_USE_AT]; }

static uint32_t task_field(const uint32_t *table, uint32_t task, size_t field)
{
    return table[field_place(table, task, field)];
}

static uint32_t edition_of(const uint32_t *table) { return layout_of(table)->edition; }

static size_t store_words(const uint32_t *table)
{
    return HELD_MOST * layout_of(table)->message_words;
}

static void lay_message(uint32_t *table, size_t place, uint64_t message)
{
    table[place] = (uint32_t)message;
    if (edition_of(table) == EDITION_2)
        table[place + 1] = (uint32_t)(message >> 32);
}

static void draw_held(gen_random *random, uint32_t *table, uint32_t hub, uint32_t number)
{
    lay_message(table, held_place(table, hub, number), any_message(random, edition_of(table)));
}

static uint32_t hub_field(const uint32_t *table, uint32_t hub, size_t field)
{
    return table[hub_place(table, hub) + field];
}

static uint32_t list_length(const uint32_t *list)
{
    uint32_t length = 0;
    while (length < LIST_WORDS && list[length] != 0)
        length++;
    return length;
}

static uint32_t running_task(const uint32_t *table)
{
    const uint32_t *list = table + ready_place(table);
    for (uint32_t i = 0; i < list_length(list); i++)
        if (task_field(table, list[i] - 1, T_SUSPENDED) == 0)
            return list[i] - 1;
    return NOBODY;
}

/* How many tasks a field of whose records has this value. */
static uint32_t tasks_with(const uint32_t *table, size_t field, uint32_t value)
{
    uint32_t count = 0;
    for (uint32_t task = 0; task < tasks_in_use(table); task++)
        count += task_field(table, task, field) == value;
    return count;
}

/* A task with this value in this field, all alike, or NOBODY. */
static uint32_t pick_task(gen_random *random, const uint32_t *table, size_t field, uint32_t value)
{
    uint32_t count = tasks_with(table, field, value), task = 0;
    if (count == 0)
        return NOBODY;
    for (uint32_t chosen = gen_below(random, count);; task++)
        if (task_field(table, task, field) == value && chosen-- == 0)
            return task;
}

/* A task other than this one that owns a Resource, or NOBODY; the likelier, the more
 * it owns. */
static uint32_t pick_owner(gen_random *random, const uint32_t *table, uint32_t other_than)
{
    uint32_t owners[HUBS], count = 0;

    for (uint32_t hub = 0; hub < hubs_in_use(table); hub++) {
        uint32_t owner = hub_field(table, hub, H_COUNT) - 1;
        if (hub_field(table, hub, H_KIND) == RESOURCE && owner != NOBODY && owner != other_than)
            owners[count++] = owner;
    }
    return count > 0 ? owners[gen_below(random, count)] : NOBODY;
}

static int owns_any(const uint32_t *table, uint32_t task)
{
    for (uint32_t hub = 0; hub < hubs_in_use(table); hub++)
        if (hub_field(table, hub, H_KIND) == RESOURCE &&
            hub_field(table, hub, H_COUNT) == task + 1)
            return 1;
    return 0;
}

/* Whom a task waits for: the owner of the Resource at which it waits, or NOBODY. */
static uint32_t awaited_owner(const uint32_t *table, uint32_t task)
{
    uint32_t hub = task_field(table, task, T_HUB);

    if (task_field(table, task, T_STATE) != WAITING ||
        hub_field(table, hub - 1, H_KIND) != RESOURCE)
        return NOBODY;
    return hub_field(table, hub - 1, H_COUNT) - 1;
}

/* How many owners stand before a task, one waiting for the next, up to one that waits for no
 * lock; in a ring all of them, 16. *meets says whether this task is among them. */
static uint32_t owners_before(const uint32_t *table, uint32_t task, uint32_t other, int *meets)
{
    uint32_t owners = 0;

    *meets = task == other;
    while (owners < TASKS && (task = awaited_owner(table, task)) != NOBODY) {
        *meets |= task == other;
        owners++;
    }
    return owners;
}

/* ---- Calls ------------------------------------------------------------- */

void gen_turn(gen_random *random, gen_mood *mood)
{
    mood->favourite = ONE_OF(random, 0, 30, 90);
    mood->puts = ONE_OF(random, 10, 35, 50, 65, 90);
    mood->longest = ONE_OF(random, 1, 3, 8, 30, TICKS_MAX);
    mood->waits = ONE_OF(random, 30, 75, 95);
}

void gen_draw_mood_of(gen_random *random, gen_mood *mood, uint32_t kinds)
{
    mood->kinds = kinds;
    mood->high = mood->locks = 0;
    mood->tasks = gen_chance(random, 30) ? TASKS : from_to(random, 1, TASKS);
    mood->hubs = gen_chance(random, 20) ? HUBS : from_to(random, 1, 6);
    mood->priorities = ONE_OF(random, 1, 2, 4, PRIORITY_MAX + 1);
    mood->kind = gen_below(random, kinds + 1);
    mood->refused = ONE_OF(random, 0, 5, 25);
    gen_turn(random, mood);
}

void gen_draw_mood(gen_random *random, gen_mood *mood)
{
    gen_draw_mood_of(random, mood, MEMORY);
}

void gen_draw_lock_mood(gen_random *random, gen_mood *mood)
{
    gen_draw_mood(random, mood);
    mood->tasks = gen_chance(random, 50) ? TASKS : from_to(random, 3, TASKS);
    mood->hubs = gen_chance(random, 50) ? HUBS : from_to(random, 3, HUBS);
    mood->kind = RESOURCE;
    mood->priorities = ONE_OF(random, 2, 4, 16, PRIORITY_MAX + 1);
    mood->refused = ONE_OF(random, 0, 2);
    mood->locks = ONE_OF(random, 40, 75, 90, 97);
}

static uint32_t draw_ticks(gen_random *random, const gen_mood *mood)
{
    return gen_chance(random, 2) ? ONE_OF(random, 1, TICKS_MAX)
                                 : from_to(random, 1, mood->longest);
}

static uint32_t draw_limit(gen_random *random, uint32_t kind)
{
    switch (kind) {
    case SEMAPHORE:
        return gen_chance(random, 80) ? from_to(random, 1, 4)
                                      : ONE_OF(random, SEMAPHORE_MAX, SEMAPHORE_MAX - 1, 100);
    case FIFO:
        return from_to(random, 1, FIFO_MAX);
    case MEMORY:
        return from_to(random, 1, BLOCKS_MAX);
    case PORT:
        return 0;
    default:
        return 1;
    }
}

static uint32_t draw_kind(gen_random *random, const gen_mood *mood)
{
    return mood->kind != 0 && gen_chance(random, 60) ? mood->kind
                                                     : from_to(random, EVENT, mood->kinds);
}

static void draw_add_task(gen_random *random, const gen_mood *mood, uint32_t *call)
{
    call[C_SERVICE] = ADD_TASK;
    call[C_TARGET] = gen_chance(random, 3) ? PRIORITY_MAX : gen_below(random, mood->priorities);
    call[C_SIDE] = gen_chance(random, 85) ? 1 : 0;
}

static void draw_add_hub(gen_random *random, const gen_mood *mood, uint32_t *call)
{
    uint32_t kind = draw_kind(random, mood), limit = draw_limit(random, kind);

    call[C_SERVICE] = ADD_HUB;
    call[C_TARGET] = kind;
    call[C_TICKS] = limit;
    call[C_WORD] = kind == SEMAPHORE && gen_chance(random, 50) ? gen_below(random, limit + 1) : 0;
    if (kind == MEMORY)
        call[C_WORD] = limit;
}

/* The last task that can run seldom waits without limit: a run in which all
 * wait for ever is over. */
static void draw_mode(gen_random *random, const gen_mood *mood, const uint32_t *table,
                      uint32_t *call)
{
    int last = tasks_with(table, T_STATE, READY) < 2;

    call[C_MODE] = NW;
    call[C_TICKS] = 0;
    if (!gen_chance(random, mood->waits))
        return;
    call[C_MODE] = gen_chance(random, last ? 5 : 40) ? W : WT;
    if (call[C_MODE] == WT)
        call[C_TICKS] = draw_ticks(random, mood);
}

/* A written Board is wiped often: only at one without a word readers wait. */
static uint32_t draw_side(gen_random *random, const gen_mood *mood, const uint32_t *hub,
                          uint32_t caller)
{
    int puts = gen_chance(random, mood->puts);

    if (hub[H_KIND] == RESOURCE && gen_chance(random, 80))
        puts = hub[H_COUNT] == caller + 1;
    if (hub[H_KIND] == BOARD && gen_chance(random, hub[H_COUNT] != 0 ? 40 : 10))
        return WIPE;
    return puts ? PUT : GET;
}

/* A number as a put to a Memory brings it: mostly that of a block, which is out or isn't;
 * else the first that no block has, or any from there on. */
static uint32_t draw_block(gen_random *random, const uint32_t *table, uint32_t hub)
{
    uint32_t limit = hub_field(table, hub, H_LIMIT), block = gen_below(random, limit);
    uint32_t draw = gen_below(random, 100);

    for (uint32_t i = 0; draw < 70 && i < limit; i++, block = (block + 1) % limit)
        if (table[held_place(table, hub, block)] == 1)
            return block;
    return draw < 85 ? block : draw < 93 ? limit : at_least(random, limit);
}

/* A put of a block: with a high word its number is no block's, so mostly without. */
static void draw_block_put(gen_random *random, const uint32_t *table, uint32_t *call)
{
    if (call[C_SERVICE] != HUB_REQUEST || call[C_SIDE] != PUT ||
        call[C_TARGET] >= hubs_in_use(table) ||
        hub_field(table, call[C_TARGET], H_KIND) != MEMORY)
        return;
    if (call[C_HIGH] != 0 && gen_chance(random, 75))
        call[C_HIGH] = 0;
    call[C_WORD] = draw_block(random, table, call[C_TARGET]);
}

static void draw_request(gen_random *random, const gen_mood *mood, const uint32_t *table,
                         uint32_t *call)
{
    uint32_t hub = gen_chance(random, mood->favourite) ? 0 : gen_below(random, hubs_in_use(table));

    call[C_SERVICE] = HUB_REQUEST;
    call[C_TARGET] = hub;
    call[C_SIDE] = draw_side(random, mood, table + hub_place(table, hub), call[C_CALLER]);
    call[C_WORD] = any_word(random);
    draw_mode(random, mood, table, call);
}

/* A Resource that is free (owner 0) or that this task owns (its number plus 1), or NOBODY. */
static uint32_t pick_lock(gen_random *random, const uint32_t *table, uint32_t owner)
{
    uint32_t hubs = hubs_in_use(table), first = gen_below(random, hubs);

    for (uint32_t i = 0; i < hubs; i++) {
        uint32_t hub = (first + i) % hubs;
        if (hub_field(table, hub, H_KIND) == RESOURCE && hub_field(table, hub, H_COUNT) == owner)
            return hub;
    }
    return NOBODY;
}

/* A Resource of another task, mostly of the one with the most owners before it: to wait for
 * it makes the longest chain. Seldom one that closes a ring. */
static uint32_t pick_awaited(gen_random *random, const uint32_t *table, uint32_t caller)
{
    uint32_t hubs = hubs_in_use(table), first = gen_below(random, hubs), best = NOBODY, most = 0;
    int longest = gen_chance(random, 80), rings = gen_chance(random, 12), meets;

    for (uint32_t i = 0; i < hubs; i++) {
        uint32_t hub = (first + i) % hubs, owner = hub_field(table, hub, H_COUNT) - 1;
        if (hub_field(table, hub, H_KIND) != RESOURCE || owner == NOBODY || owner == caller)
            continue;
        uint32_t owners = owners_before(table, owner, caller, &meets);
        if ((meets && !rings) || (best != NOBODY && (!longest || owners <= most)))
            continue;
        best = hub;
        most = owners;
    }
    return best;
}

/* Who owns no lock takes a free one first, then waits for another's; at times it gives one
 * back. The last that can run seldom waits without limit. */
static void draw_lock(gen_random *random, const gen_mood *mood, const uint32_t *table,
                      uint32_t *call)
{
    uint32_t own = pick_lock(random, table, call[C_CALLER] + 1);
    uint32_t free = pick_lock(random, table, 0);
    uint32_t other = pick_awaited(random, table, call[C_CALLER]);
    int last = tasks_with(table, T_STATE, READY) < 2, waits = gen_chance(random, last ? 30 : 80);

    if (own == NOBODY && free == NOBODY && other == NOBODY)
        return;
    call[C_SERVICE] = HUB_REQUEST;
    call[C_SIDE] = GET;
    if (free != NOBODY && (own == NOBODY || gen_chance(random, 15)))
        call[C_TARGET] = free;
    else if (other != NOBODY && (own == NOBODY || waits))
        call[C_TARGET] = other;
    else
        call[C_TARGET] = own != NOBODY ? own : free;
    if (call[C_TARGET] == own)
        call[C_SIDE] = PUT;
    call[C_MODE] = gen_chance(random, 4) ? NW : gen_chance(random, last ? 5 : 60) ? W : WT;
    call[C_TICKS] = call[C_MODE] == WT ? draw_ticks(random, mood) : 0;
}

/* Start, Stop, Suspend and Resume: mostly a task that the service can change; Stop
 * often a Resource's owner, if there is one besides the caller. */
static void draw_on_task(gen_random *random, const uint32_t *table, uint32_t service,
                         uint32_t *call)
{
    uint32_t fit = NOBODY, owner = NOBODY;

    if (service == START)
        fit = pick_task(random, table, T_STATE, INACTIVE);
    else if (service == RESUME)
        fit = pick_task(random, table, T_SUSPENDED, 1);
    else if (gen_chance(random, 50))
        fit = pick_task(random, table, T_STATE, gen_chance(random, 60) ? WAITING : SLEEPING);
    call[C_SERVICE] = service;
    call[C_TARGET] = fit != NOBODY && gen_chance(random, 75)
                         ? fit
                         : gen_below(random, tasks_in_use(table));
    if (service == STOP)
        owner = pick_owner(random, table, call[C_CALLER]);
    if (owner != NOBODY && gen_chance(random, 50))
        call[C_TARGET] = owner;
}

/* Without a running task only Tick, Add task and Blank lead on. */
static void draw_idle(gen_random *random, const gen_mood *mood, const uint32_t *table,
                      uint32_t *call)
{
    int over = tasks_with(table, T_TICKS, 0) == tasks_in_use(table);

    if (tasks_in_use(table) < TASKS && gen_chance(random, over ? 60 : 5)) {
        draw_add_task(random, mood, call);
        call[C_SIDE] = 1;
    } else {
        call[C_SERVICE] = over && gen_chance(random, 50) ? BLANK : TICK;
    }
}

static void draw_service(gen_random *random, const gen_mood *mood, const uint32_t *table,
                         uint32_t *call)
{
    uint32_t draw = gen_below(random, 100);

    if (draw < 55 && hubs_in_use(table) > 0) {
        draw_request(random, mood, table, call);
    } else if (draw < 67) {
        call[C_SERVICE] = TICK;
    } else if (draw < 75) {
        draw_on_task(random, table, START, call);
    } else if (draw < 79) {
        draw_on_task(random, table, STOP, call);
    } else if (draw < 83) {
        draw_on_task(random, table, SUSPEND, call);
    } else if (draw < 88) {
        draw_on_task(random, table, RESUME, call);
    } else if (draw < 91) {
        call[C_SERVICE] = YIELD;
    } else if (draw < 95) {
        call[C_SERVICE] = SLEEP;
        call[C_TICKS] = draw_ticks(random, mood);
    } else if (draw < 97) {
        draw_add_task(random, mood, call);
    } else if (draw < 99) {
        draw_add_hub(random, mood, call);
    } else {
        call[C_SERVICE] = gen_chance(random, 5) ? BLANK : TICK;
    }
}

static void draw_good(gen_random *random, const gen_mood *mood, const uint32_t *table,
                      uint32_t *call)
{
    call[C_CALLER] = running_task(table);
    if (tasks_in_use(table) < mood->tasks && gen_chance(random, 70))
        draw_add_task(random, mood, call);
    else if (hubs_in_use(table) < mood->hubs && gen_chance(random, 70))
        draw_add_hub(random, mood, call);
    else if (call[C_CALLER] == NOBODY)
        draw_idle(random, mood, table, call);
    else
        draw_service(random, mood, table, call);
    if (mood->locks > 0 && call[C_CALLER] != NOBODY && call[C_SERVICE] < ADD_TASK &&
        hubs_in_use(table) > 0 && gen_chance(random, mood->locks))
        draw_lock(random, mood, table, call);
}

/* A request, Sleep or Add whose arguments are right, to be spoiled. */
static void draw_with_arguments(gen_random *random, const gen_mood *mood, const uint32_t *table,
                                uint32_t *call)
{
    uint32_t draw = gen_below(random, 10);

    if (draw < 4 && hubs_in_use(table) > 0) {
        draw_request(random, mood, table, call);
    } else if (draw < 6) {
        call[C_SERVICE] = SLEEP;
        call[C_TICKS] = draw_ticks(random, mood);
    } else if (draw < 8) {
        draw_add_task(random, mood, call);
    } else {
        draw_add_hub(random, mood, call);
    }
}

/* Side 3 is wrong too, but at a Board. */
static void spoil_request(gen_random *random, const uint32_t *table, uint32_t *call)
{
    uint32_t above = hub_field(table, call[C_TARGET], H_KIND) == BOARD ? WIPE + 1 : GET + 1;

    switch (gen_below(random, 4)) {
    case 0:
        call[C_SIDE] = gen_chance(random, 50) ? NO_SIDE : at_least(random, above);
        break;
    case 1:
        call[C_MODE] = gen_chance(random, 50) ? 0 : at_least(random, WT + 1);
        break;
    case 2:
        call[C_MODE] = gen_chance(random, 50) ? W : NW;
        call[C_TICKS] = at_least(random, 1);
        break;
    default:
        call[C_MODE] = WT;
        call[C_TICKS] = gen_chance(random, 50) ? 0 : at_least(random, TICKS_MAX + 1);
        break;
    }
}

/* Kind, limit or start, each alone; a Semaphore's start is tied to its limit, and a Memory's
 * is its limit. Runs from before there were Memories have no kind above the Board's. */
static void spoil_add_hub(gen_random *random, const gen_mood *mood, uint32_t *call)
{
    uint32_t kind = call[C_TARGET], above = mood->kinds >= MEMORY ? MEMORY + 1 : BOARD + 1;

    switch (gen_below(random, 3)) {
    case 0:
        call[C_TARGET] = gen_chance(random, 50) ? 0 : at_least(random, above);
        break;
    case 1:
        if (kind == MEMORY) { /* the start is the limit still */
            call[C_TICKS] = gen_chance(random, 50) ? 0 : at_least(random, BLOCKS_MAX + 1);
            call[C_WORD] = call[C_TICKS];
            break;
        }
        call[C_WORD] = 0;
        if (kind != PORT && gen_chance(random, 50))
            call[C_TICKS] = 0;
        else
            call[C_TICKS] = at_least(random, kind == SEMAPHORE ? SEMAPHORE_MAX + 1
                                             : kind == FIFO    ? FIFO_MAX + 1
                                             : kind == PORT    ? 1
                                                               : 2);
        break;
    default:
        if (kind == MEMORY && gen_chance(random, 50)) {
            call[C_WORD] = gen_below(random, call[C_TICKS]);
            break;
        }
        call[C_WORD] = at_least(random, kind == SEMAPHORE || kind == MEMORY ? call[C_TICKS] + 1
                                                                            : 1);
        break;
    }
}

static void spoil_arguments(gen_random *random, const gen_mood *mood, const uint32_t *table,
                            uint32_t *call)
{
    switch (call[C_SERVICE]) {
    case HUB_REQUEST:
        spoil_request(random, table, call);
        break;
    case SLEEP:
        call[C_TICKS] = gen_chance(random, 50) ? 0 : at_least(random, TICKS_MAX + 1);
        break;
    case ADD_TASK:
        if (gen_chance(random, 50))
            call[C_TARGET] = at_least(random, PRIORITY_MAX + 1);
        else
            call[C_SIDE] = at_least(random, 2);
        break;
    default:
        spoil_add_hub(random, mood, call);
        break;
    }
}

/* Another task in use, the first not in use, or any number. */
static uint32_t wrong_caller(gen_random *random, const uint32_t *table)
{
    uint32_t other = gen_below(random, tasks_in_use(table) + 1);
    return gen_chance(random, 70) && other != running_task(table) ? other
                                                                  : at_least(random, TASKS);
}

/* A call that is to be refused for one cause, and at times for later ones too. */
static void draw_refused(gen_random *random, const gen_mood *mood, const uint32_t *table,
                         uint32_t *call)
{
    call[C_CALLER] = running_task(table);
    switch (gen_below(random, 6)) {
    case 0:
        call[C_SERVICE] = at_least(random, ADD_HUB + 1);
        break;
    case 1:
        call[C_SERVICE] = from_to(random, HUB_REQUEST, SLEEP);
        call[C_CALLER] = wrong_caller(random, table);
        break;
    case 2:
        draw_mode(random, mood, table, call);
        call[C_SERVICE] = from_to(random, HUB_REQUEST, RESUME);
        call[C_SIDE] = from_to(random, NO_SIDE, mood->kinds >= BOARD ? WIPE : GET);
        call[C_TARGET] = at_least(random, call[C_SERVICE] == HUB_REQUEST ? hubs_in_use(table)
                                                                         : tasks_in_use(table));
        break;
    default:
        draw_with_arguments(random, mood, table, call);
        spoil_arguments(random, mood, table, call);
        break;
    }
}

/* Fields a service doesn't name are ignored, so they get anything; the high word comes
 * last, since a table of edition 1 may be one for calls without it. */
static void draw_ignored(gen_random *random, uint32_t *call)
{
    for (int i = 0; i < C_HIGH; i++)
        call[i] = gen_chance(random, 50) ? 0 : any_word(random);
    call[C_HIGH] = 0;
}

/* A high word in so many percent of the calls, whatever the service, and then at times a
 * hub request without a low word. Nothing is drawn for 0 percent. */
static void draw_high(gen_random *random, uint32_t percent, uint32_t *call)
{
    if (percent == 0 || !gen_chance(random, percent))
        return;
    call[C_HIGH] = at_least(random, 1);
    if (call[C_SERVICE] == HUB_REQUEST && gen_chance(random, 20))
        call[C_WORD] = 0;
}

void gen_call(gen_random *random, const gen_mood *mood, const uint32_t *table, uint32_t call[8])
{
    draw_ignored(random, call);
    if (table[EDITION_AT] != EDITION_1 && table[EDITION_AT] != EDITION_2)
        call[C_SERVICE] = BLANK;
    else if (gen_chance(random, mood->refused))
        draw_refused(random, mood, table, call);
    else
        draw_good(random, mood, table, call);
    draw_high(random, mood->high, call);
    draw_block_put(random, table, call);
}

/* ---- Well-formed tables ------------------------------------------------ */

/* So many percent of a Memory's blocks are out, whichever they are. */
static void build_blocks(gen_random *random, uint32_t *table, uint32_t number, uint32_t percent)
{
    uint32_t *hub = table + hub_place(table, number);

    hub[H_COUNT] = hub[H_START] = hub[H_LIMIT];
    for (uint32_t block = 0; block < hub[H_LIMIT]; block++) {
        int out = gen_chance(random, percent);
        table[held_place(table, number, block)] = out ? 1 : 0;
        hub[H_COUNT] -= out ? 1 : 0;
    }
}

static void build_hub(gen_random *random, uint32_t *table, uint32_t number, uint32_t kind)
{
    uint32_t *hub = table + hub_place(table, number);

    hub[H_KIND] = kind;
    hub[H_LIMIT] = draw_limit(random, kind);
    if (kind == SEMAPHORE)
        hub[H_START] = gen_below(random, hub[H_LIMIT] + 1);
    if (kind == MEMORY) {
        build_blocks(random, table, number, gen_chance(random, 50) ? 100 : gen_below(random, 101));
        return;
    }
    if (kind == RESOURCE)
        hub[H_COUNT] = gen_below(random, tasks_in_use(table) + 1);
    else /* at an end mostly: there the waiters are */
        hub[H_COUNT] = gen_chance(random, 80) ? ONE_OF(random, 0, hub[H_LIMIT])
                                              : gen_below(random, hub[H_LIMIT] + 1);
    for (uint32_t i = 0; (kind == FIFO || kind == BOARD) && i < hub[H_COUNT]; i++)
        draw_held(random, table, number, i);
}

/* The side that may wait at the hub, or none. At a Port a parity decides that
 * is the same for all its waiters, so that its list holds one side only. */
static uint32_t side_at(const uint32_t *table, uint32_t number, uint32_t task)
{
    const uint32_t *hub = table + hub_place(table, number);

    if (hub[H_KIND] == PORT)
        return (number + table[task_place(table, 0) + T_PRIORITY]) % 2 == 0 ? PUT : GET;
    if (hub[H_KIND] == RESOURCE)
        return hub[H_COUNT] != 0 && hub[H_COUNT] != task + 1 ? GET : NO_SIDE;
    if (hub[H_COUNT] == 0)
        return GET;
    return hub[H_COUNT] == hub[H_LIMIT] && hub[H_KIND] < RESOURCE ? PUT : NO_SIDE;
}

/* Waiting at the hub if its rules let the task, else the record is left. */
static void build_waiter(gen_random *random, uint32_t *table, uint32_t number, uint32_t hub)
{
    uint32_t *task = table + task_place(table, number), side = side_at(table, hub, number);
    uint32_t kind = hub_field(table, hub, H_KIND);

    if (side == NO_SIDE)
        return;
    task[T_STATE] = WAITING;
    task[T_HUB] = hub + 1;
    task[T_SIDE] = side;
    task[T_TICKS] = ONE_OF(random, 0, 1, 2, 3, TICKS_MAX);
    if (side == PUT && (kind == PORT || kind == FIFO))
        lay_message(table, task_place(table, number) + T_WORD,
                    any_message(random, edition_of(table)));
}

/* With a chance of `waits` percent it waits at the hub. An owner isn't inactive. */
static void build_task(gen_random *random, uint32_t *table, uint32_t number, uint32_t waits,
                       uint32_t hub)
{
    uint32_t *task = table + task_place(table, number);

    task[T_STATE] = INACTIVE;
    if (hub < hubs_in_use(table) && gen_chance(random, waits))
        build_waiter(random, table, number, hub);
    if (task[T_STATE] == INACTIVE && (gen_chance(random, 85) || owns_any(table, number))) {
        task[T_STATE] = gen_chance(random, 75) ? READY : SLEEPING;
        if (task[T_STATE] == SLEEPING)
            task[T_TICKS] = ONE_OF(random, 1, 2, 3, TICKS_MAX);
        else
            table[field_place(table, number, T_ANSWER)] = from_to(random, NO_ANSWER, TO);
        if (task_field(table, number, T_ANSWER) == OK)
            lay_message(table, task_place(table, number) + T_WORD,
                        any_message(random, edition_of(table)));
    }
    task[T_SUSPENDED] = task[T_STATE] != INACTIVE && gen_chance(random, 20);
}

/* The tasks' effective priorities (M-108): each task lowers the number of the owner that it
 * waits for, of the one that this one waits for, and so on. So many owners at most: with 16 a
 * ring has all of its own among them; with fewer it is what a wrong program has. */
static void rank_to_depth(const uint32_t *table, uint32_t owners, uint32_t ranks[TASKS])
{
    for (uint32_t task = 0; task < tasks_in_use(table); task++)
        ranks[task] = task_field(table, task, T_PRIORITY);
    for (uint32_t task = 0; task < tasks_in_use(table); task++) {
        uint32_t own = task_field(table, task, T_PRIORITY), owner = awaited_owner(table, task);
        for (uint32_t i = 0; i < owners && owner != NOBODY; i++) {
            if (own < ranks[owner])
                ranks[owner] = own;
            owner = awaited_owner(table, owner);
        }
    }
}

static void rank_tasks(const uint32_t *table, uint32_t ranks[TASKS])
{
    rank_to_depth(table, TASKS, ranks);
}

/* Puts a task into a list at a right place: behind those before it by these ranks, before,
 * between or behind its equals. */
static void insert(gen_random *random, const uint32_t *ranks, uint32_t *list, uint32_t task)
{
    uint32_t at = 0, length = list_length(list);

    while (at < length && ranks[list[at] - 1] < ranks[task])
        at++;
    while (at < length && ranks[list[at] - 1] == ranks[task] && gen_chance(random, 50))
        at++;
    memmove(list + at + 1, list + at, (length - at) * sizeof *list);
    list[at] = task + 1;
}

static void build_contents(uint32_t *table, uint32_t edition, uint32_t tasks, uint32_t hubs)
{
    const layout *of = &layouts[edition - EDITION_1];

    memset(table, 0, of->words * sizeof *table);
    memcpy(table,
           ((uint32_t[]){edition, tasks, hubs, TASKS_AT, of->hubs_at, of->ready_at, of->waiting_at,
                         of->stores_at}),
           TASKS_AT * sizeof *table);
}

static void build_priorities(gen_random *random, uint32_t *table, uint32_t priorities)
{
    for (uint32_t task = 0; task < tasks_in_use(table); task++) {
        uint32_t lowest = gen_chance(random, 50) ? PRIORITY_MAX + 1 - priorities : 0;
        table[task_place(table, task) + T_PRIORITY] = lowest + gen_below(random, priorities);
    }
}

static void build_lists(gen_random *random, uint32_t *table)
{
    uint32_t ranks[TASKS];

    rank_tasks(table, ranks);
    for (uint32_t task = 0; task < tasks_in_use(table); task++) {
        uint32_t state = task_field(table, task, T_STATE), hub = task_field(table, task, T_HUB);
        if (state == READY)
            insert(random, ranks, table + ready_place(table), task);
        else if (state == WAITING)
            insert(random, ranks, table + list_place(table, hub - 1), task);
    }
}

/* The tasks' records but for the priorities, which are there, and the lists. */
static void build_tasks(gen_random *random, uint32_t *table, const gen_mood *mood)
{
    for (uint32_t task = 0; task < tasks_in_use(table); task++) {
        uint32_t hub = gen_chance(random, mood->favourite)
                           ? 0
                           : gen_below(random, hubs_in_use(table));
        build_task(random, table, task, mood->waits, hub);
    }
    build_lists(random, table);
}

void gen_table(gen_random *random, uint32_t edition, uint32_t *table)
{
    gen_mood mood;

    gen_draw_mood(random, &mood);
    build_contents(table, edition, mood.tasks, mood.hubs);
    if (gen_chance(random, 2))
        table[gen_chance(random, 50) ? TASKS_IN_USE_AT : HUBS_IN_USE_AT] = 0;

    build_priorities(random, table, mood.priorities);
    for (uint32_t hub = 0; hub < hubs_in_use(table); hub++)
        build_hub(random, table, hub, draw_kind(random, &mood));
    build_tasks(random, table, &mood);
}

/* ---- Stops of owners --------------------------------------------------- */

/* Resources, some other hubs among them unless the keeper owns all; it owns so many
 * percent of them. */
static void build_locks(gen_random *random, uint32_t *table, uint32_t keeper, uint32_t kept)
{
    for (uint32_t hub = 0; hub < hubs_in_use(table); hub++) {
        uint32_t kind = kept == 100 || gen_chance(random, 75) ? (uint32_t)RESOURCE
                                                              : from_to(random, EVENT, FIFO);
        build_hub(random, table, hub, kind);
        if (kind == RESOURCE && gen_chance(random, kept))
            table[hub_place(table, hub) + H_COUNT] = keeper + 1;
    }
}

/* So many percent wait, if their hub lets them: each at the hub behind the last
 * one's, so that many hubs have a waiter, or at any. */
static void build_queues(gen_random *random, uint32_t *table, uint32_t waits)
{
    uint32_t hubs = hubs_in_use(table), first = gen_below(random, hubs);
    int in_turn = waits == 100 || gen_chance(random, 50);

    for (uint32_t task = 0; task < tasks_in_use(table); task++)
        build_task(random, table, task, waits,
                   in_turn ? (first + task) % hubs : gen_below(random, hubs));
}

/* Somebody has to run. */
static void build_caller(uint32_t *table, uint32_t number)
{
    uint32_t *task = table + task_place(table, number), priority = task[T_PRIORITY];

    memset(task, 0, layout_of(table)->task_words * sizeof *task);
    task[T_STATE] = READY;
    task[T_PRIORITY] = priority;
}

void gen_stop(gen_random *random, uint32_t edition, uint32_t *table, uint32_t call[8])
{
    uint32_t keeper;

    do {
        int all = gen_chance(random, 10); /* it owns 16, and all others but the caller wait */
        uint32_t tasks = all || gen_chance(random, 30) ? TASKS : from_to(random, 2, TASKS);
        uint32_t hubs = all || gen_chance(random, 30) ? HUBS : from_to(random, 1, 6);
        build_contents(table, edition, tasks, hubs);
        build_priorities(random, table, ONE_OF(random, 1, 2, 4, PRIORITY_MAX + 1));
        keeper = gen_below(random, tasks);
        build_locks(random, table, keeper, all ? 100 : ONE_OF(random, 0, 15, 40, 80, 100));
        build_queues(random, table, all ? 100 : ONE_OF(random, 0, 30, 60, 90));
        build_caller(table, (keeper + from_to(random, 1, tasks - 1)) % tasks);
        build_lists(random, table);
    } while (running_task(table) == keeper);
    draw_ignored(random, call);
    call[C_SERVICE] = STOP;
    call[C_CALLER] = running_task(table);
    call[C_TARGET] = keeper;
    draw_high(random, edition == EDITION_2 ? 50 : 0, call);
}

/* ---- Requests to Boards ------------------------------------------------ */

/* Any mode, and ticks that go with it. */
static void draw_any_mode(gen_random *random, uint32_t *call)
{
    call[C_MODE] = from_to(random, W, WT);
    call[C_TICKS] = call[C_MODE] == WT ? ONE_OF(random, 1, 2, 3, TICKS_MAX) : 0;
}

/* Hubs of every kind, a Board with or without a word among them. */
static void build_board(gen_random *random, uint32_t *table, uint32_t board, int written)
{
    for (uint32_t hub = 0; hub < hubs_in_use(table); hub++) {
        uint32_t kind = hub == board ? (uint32_t)BOARD : from_to(random, EVENT, MEMORY);
        build_hub(random, table, hub, kind);
    }
    table[hub_place(table, board) + H_COUNT] = written ? 1 : 0;
    lay_message(table, store_place(table, board),
                written ? any_message(random, edition_of(table)) : 0);
}

void gen_board(gen_random *random, uint32_t edition, uint32_t *table, uint32_t call[8])
{
    int all = gen_chance(random, 10); /* all but the caller wait to read */
    uint32_t tasks = all || gen_chance(random, 30) ? TASKS : from_to(random, 1, TASKS);
    uint32_t hubs = gen_chance(random, 30) ? HUBS : from_to(random, 1, 6);
    uint32_t board = gen_below(random, hubs), waits = ONE_OF(random, 0, 10, 30, 60, 90);

    build_contents(table, edition, tasks, hubs);
    build_priorities(random, table, ONE_OF(random, 1, 2, 4, PRIORITY_MAX + 1));
    build_board(random, table, board, !all && gen_chance(random, 25));
    for (uint32_t task = 0; task < tasks; task++)
        build_task(random, table, task, all ? 100 : waits, board);
    build_caller(table, gen_below(random, tasks));
    build_lists(random, table);
    draw_ignored(random, call);
    call[C_SERVICE] = HUB_REQUEST;
    call[C_CALLER] = running_task(table);
    call[C_TARGET] = board;
    call[C_SIDE] = ONE_OF(random, PUT, PUT, PUT, GET, WIPE);
    call[C_WORD] = any_word(random);
    draw_any_mode(random, call);
    if (gen_chance(random, 10)) { /* side 3 at any hub: refused but at a Board */
        call[C_TARGET] = gen_below(random, hubs);
        call[C_SIDE] = WIPE;
    }
    draw_high(random, edition == EDITION_2 ? 60 : 0, call);
}

/* ---- Blocks put and taken ---------------------------------------------- */

/* Hubs of every kind, a Memory among them, often one of 8 blocks: only there is a block 7. */
static void build_pool(gen_random *random, uint32_t *table, uint32_t pool, uint32_t out)
{
    for (uint32_t hub = 0; hub < hubs_in_use(table); hub++) {
        uint32_t kind = hub == pool ? (uint32_t)MEMORY : from_to(random, EVENT, MEMORY);
        build_hub(random, table, hub, kind);
    }
    if (gen_chance(random, 30))
        table[hub_place(table, pool) + H_LIMIT] = BLOCKS_MAX;
    build_blocks(random, table, pool, out);
}

/* All blocks but one are out, whichever that is: else block 7 is seldom the lowest free one. */
static void leave_one_block(gen_random *random, uint32_t *table, uint32_t pool)
{
    uint32_t block = gen_below(random, hub_field(table, pool, H_LIMIT));

    build_blocks(random, table, pool, 100);
    table[held_place(table, pool, block)] = 0;
    table[hub_place(table, pool) + H_COUNT] = 1;
}

void gen_pool(gen_random *random, uint32_t edition, uint32_t *table, uint32_t call[8])
{
    int all = gen_chance(random, 10); /* all but the caller wait for a block */
    uint32_t tasks = all || gen_chance(random, 30) ? TASKS : from_to(random, 1, TASKS);
    uint32_t hubs = gen_chance(random, 30) ? HUBS : from_to(random, 1, 6);
    uint32_t pool = gen_below(random, hubs), waits = ONE_OF(random, 0, 10, 30, 60, 90);

    build_contents(table, edition, tasks, hubs);
    build_priorities(random, table, ONE_OF(random, 1, 2, 4, PRIORITY_MAX + 1));
    build_pool(random, table, pool, all ? 100 : ONE_OF(random, 0, 30, 50, 70, 100, 100, 100));
    if (!all && gen_chance(random, 15))
        leave_one_block(random, table, pool);
    for (uint32_t task = 0; task < tasks; task++)
        build_task(random, table, task, all ? 100 : waits, pool);
    build_caller(table, gen_below(random, tasks));
    build_lists(random, table);
    draw_ignored(random, call);
    call[C_SERVICE] = HUB_REQUEST;
    call[C_CALLER] = running_task(table);
    call[C_TARGET] = pool;
    call[C_SIDE] = ONE_OF(random, PUT, PUT, PUT, GET, GET);
    call[C_WORD] = any_word(random);
    draw_any_mode(random, call);
    draw_high(random, edition == EDITION_2 ? 60 : 0, call);
    draw_block_put(random, table, call);
}

/* ---- Requests to hubs at which many wait ------------------------------- */

void gen_ask(gen_random *random, const uint32_t *table, uint32_t hub, uint32_t call[8])
{
    uint32_t caller = running_task(table), side = side_at(table, hub, caller);

    draw_ignored(random, call);
    call[C_SERVICE] = caller == NOBODY ? TICK : HUB_REQUEST;
    call[C_CALLER] = gen_chance(random, 5) ? gen_below(random, tasks_in_use(table)) : caller;
    call[C_TARGET] = hub;
    call[C_SIDE] = side != NO_SIDE ? side : (uint32_t)GET;
    call[C_MODE] = ONE_OF(random, W, W, W, WT, WT, WT, WT, NW);
    call[C_TICKS] = call[C_MODE] == WT ? ONE_OF(random, 1, 2, 3, TICKS_MAX) : 0;
    call[C_WORD] = any_word(random);
    draw_high(random, edition_of(table) == EDITION_2 ? 60 : 0, call);
}

/* So many percent wait at the hub, all numbers alike since every percentage is; the
 * caller is often less urgent than all of them, else it would seldom have many ahead. */
static uint32_t build_queue(gen_random *random, uint32_t *table)
{
    uint32_t hub = gen_below(random, hubs_in_use(table));
    uint32_t caller = gen_below(random, tasks_in_use(table));
    uint32_t waits = gen_chance(random, 25) ? 100 : gen_below(random, 101);

    build_priorities(random, table, ONE_OF(random, 1, 2, 4, PRIORITY_MAX + 1));
    if (gen_chance(random, 50))
        table[task_place(table, caller) + T_PRIORITY] = PRIORITY_MAX;
    for (uint32_t number = 0; number < hubs_in_use(table); number++)
        build_hub(random, table, number, from_to(random, EVENT, MEMORY));
    for (uint32_t task = 0; task < tasks_in_use(table); task++)
        build_task(random, table, task, waits, hub);
    build_caller(table, caller);
    build_lists(random, table);
    return hub;
}

/* Anew until the running task finds a hub at which it has to wait. */
void gen_queue(gen_random *random, uint32_t edition, uint32_t *table, uint32_t call[8])
{
    uint32_t hub;

    do {
        uint32_t tasks = gen_chance(random, 75) ? TASKS : from_to(random, 1, TASKS);
        uint32_t hubs = gen_chance(random, 20) ? HUBS : from_to(random, 1, 6);
        build_contents(table, edition, tasks, hubs);
        hub = build_queue(random, table);
    } while (side_at(table, hub, running_task(table)) == NO_SIDE);
    gen_ask(random, table, hub, call);
}

/* ---- Chains and rings of locks ----------------------------------------- */

/* The numbers 0 to count - 1, in any order. */
static void shuffle(gen_random *random, uint32_t *numbers, uint32_t count)
{
    for (uint32_t i = 0; i < count; i++) {
        uint32_t at = gen_below(random, i + 1);
        numbers[i] = numbers[at];
        numbers[at] = i;
    }
}

/* Tasks and hubs in any order: the first `length` tasks are the chain, from its head on. Each
 * owns the lock of its place and waits for that of another place, or for none as a head. */
typedef struct {
    uint32_t task[TASKS], lock[HUBS], awaits[TASKS], length;
} chain;

/* One behind the other, a ring, or several heads with some behind each. */
static void draw_links(gen_random *random, chain *of)
{
    uint32_t draw = gen_below(random, 100);

    for (uint32_t i = 0; i < of->length; i++)
        of->awaits[i] = i == 0 ? NOBODY : i - 1;
    if (draw < 28)
        of->awaits[0] = of->length - 1;
    for (uint32_t i = 1; draw >= 70 && i < of->length; i++)
        of->awaits[i] = gen_chance(random, 30) ? (uint32_t)NOBODY : gen_below(random, i);
}

/* Along the chain they are any, ever more urgent, ever less, or equal but for one; or the
 * heads are equals, less urgent than all who wait. */
static void build_chain_priorities(gen_random *random, uint32_t *table, const chain *of)
{
    uint32_t draw = gen_below(random, 8), step = from_to(random, 1, 8);
    uint32_t urgent = gen_below(random, of->length);

    build_priorities(random, table, ONE_OF(random, 2, 4, 16, PRIORITY_MAX + 1));
    for (uint32_t i = 0; i < of->length; i++) {
        uint32_t *own = table + task_place(table, of->task[i]) + T_PRIORITY;
        if (draw < 3)
            *own = 200 - step * i;
        else if (draw == 3)
            *own = 40 + step * i;
        else if (draw == 4)
            *own = i == urgent ? 50 : 100;
        else if (draw < 7 && of->awaits[i] == NOBODY)
            *own = PRIORITY_MAX;
    }
}

/* The hubs that aren't the chain's locks are any, half of them Resources, often of tasks in
 * it, so that one owns several. */
static void build_chain_hubs(gen_random *random, uint32_t *table, const chain *of)
{
    for (uint32_t i = 0; i < hubs_in_use(table); i++) {
        if (i >= of->length && gen_chance(random, 50)) {
            build_hub(random, table, of->lock[i], from_to(random, EVENT, MEMORY));
            continue;
        }
        build_hub(random, table, of->lock[i], RESOURCE);
        uint32_t from = gen_chance(random, 60) ? of->length : tasks_in_use(table);
        uint32_t owner = i < of->length ? i : gen_below(random, from);
        table[hub_place(table, of->lock[i]) + H_COUNT] = of->task[owner] + 1;
    }
}

/* A hub that is no Resource and at which one may wait, or one that isn't in use. */
static uint32_t pick_beside(gen_random *random, const uint32_t *table, const chain *of)
{
    uint32_t hubs = hubs_in_use(table), first = gen_below(random, hubs);

    for (uint32_t i = 0; i < hubs; i++) {
        uint32_t hub = (first + i) % hubs;
        if (hub_field(table, hub, H_KIND) != RESOURCE &&
            side_at(table, hub, of->task[0]) != NO_SIDE)
            return hub;
    }
    return hubs;
}

/* A head runs mostly, else sleeps, or waits at a hub that is no lock, the same for all. */
static void build_links(gen_random *random, uint32_t *table, const chain *of)
{
    uint32_t beside = pick_beside(random, table, of), waits = ONE_OF(random, 20, 80);

    for (uint32_t i = 0; i < of->length; i++) {
        int head = of->awaits[i] == NOBODY;
        build_task(random, table, of->task[i], head ? waits : 100,
                   head ? beside : of->lock[of->awaits[i]]);
    }
}

/* Beside the chain: some wait for one of its locks, or at any hub. One runs mostly, and is
 * often more urgent than all. */
static void build_beside(gen_random *random, uint32_t *table, const chain *of)
{
    uint32_t waits = ONE_OF(random, 0, 30, 60, 90), tasks = tasks_in_use(table);

    for (uint32_t i = of->length; i < tasks; i++)
        build_task(random, table, of->task[i], waits,
                   gen_chance(random, 60) ? of->lock[gen_below(random, of->length)]
                                          : gen_below(random, hubs_in_use(table)));
    if (of->length == tasks || gen_chance(random, 20))
        return;
    uint32_t caller = of->task[from_to(random, of->length, tasks - 1)];
    build_caller(table, caller);
    if (gen_chance(random, 40))
        table[task_place(table, caller) + T_PRIORITY] = 0;
}

/* Who waits in the chain has one tick left so that a Tick breaks it: none, the last, each
 * with a chance, or all. */
static void build_ticks(gen_random *random, uint32_t *table, const chain *of)
{
    uint32_t percent = ONE_OF(random, 0, 10, 70, 100);
    int last = gen_chance(random, 30);

    for (uint32_t i = 0; i < of->length; i++) {
        uint32_t *task = table + task_place(table, of->task[i]);
        uint32_t ticks = ONE_OF(random, 0, 0, 5, TICKS_MAX);
        int out = gen_chance(random, percent) || (last && i == of->length - 1);
        if (task[T_STATE] == WAITING)
            task[T_TICKS] = out ? 1 : ticks;
    }
}

/* Services 1 to 6 on what the chain has, a Tick, or any call. */
static void draw_on_chain(gen_random *random, const uint32_t *table, const chain *of,
                          uint32_t *call)
{
    uint32_t member = of->task[gen_below(random, of->length)], draw = gen_below(random, 100);
    uint32_t caller = running_task(table), own = pick_lock(random, table, caller + 1);
    uint32_t other = pick_awaited(random, table, caller);
    int many = tasks_with(table, T_TICKS, 1) > 2 && gen_chance(random, 40);
    gen_mood mood;

    gen_draw_mood(random, &mood);
    mood.tasks = mood.hubs = mood.refused = 0;
    draw_ignored(random, call);
    draw_any_mode(random, call);
    call[C_CALLER] = caller;
    call[C_SERVICE] = HUB_REQUEST;
    if (caller == NOBODY || many || draw < 18) {
        call[C_SERVICE] = TICK;
    } else if (draw < 45 && own != NOBODY) {
        call[C_TARGET] = own;
        call[C_SIDE] = PUT;
    } else if (draw < 70) {
        call[C_TARGET] = other != NOBODY && gen_chance(random, 50) ? other
                                                                   : of->lock[of->length - 1];
        call[C_SIDE] = GET;
    } else if (draw < 85) {
        call[C_SERVICE] = ONE_OF(random, STOP, STOP, STOP, SUSPEND, RESUME);
        call[C_TARGET] = member;
    } else {
        gen_call(random, &mood, table, call);
    }
}

void gen_chain(gen_random *random, uint32_t edition, uint32_t *table, uint32_t call[8])
{
    chain of = {.length = gen_chance(random, 20) ? TASKS : from_to(random, 2, TASKS)};
    uint32_t tasks = gen_chance(random, 40) ? of.length : from_to(random, of.length, TASKS);
    uint32_t hubs = from_to(random, of.length, HUBS);

    build_contents(table, edition, tasks, hubs);
    shuffle(random, of.task, tasks);
    shuffle(random, of.lock, hubs);
    draw_links(random, &of);
    build_chain_priorities(random, table, &of);
    build_chain_hubs(random, table, &of);
    build_links(random, table, &of);
    build_beside(random, table, &of);
    build_ticks(random, table, &of);
    build_lists(random, table);
    draw_on_chain(random, table, &of, call);
    draw_high(random, edition == EDITION_2 ? 60 : 0, call);
}

/* ---- High words -------------------------------------------------------- */

void gen_clear_high(uint32_t *table)
{
    for (uint32_t task = 0; task < tasks_in_use(table); task++)
        table[field_place(table, task, T_HIGH)] = 0;
    for (uint32_t hub = 0; hub < hubs_in_use(table); hub++)
        for (uint32_t i = 0; i < HELD_MOST; i++)
            table[held_place(table, hub, i) + 1] = 0;
}

static int may_have_message(const uint32_t *table, uint32_t task)
{
    uint32_t hub = task_field(table, task, T_HUB);
    uint32_t kind = hub == 0 ? 0 : hub_field(table, hub - 1, H_KIND);

    return task_field(table, task, T_ANSWER) == OK ||
           (task_field(table, task, T_SIDE) == PUT && (kind == PORT || kind == FIFO));
}

enum { MESSAGES_MOST = TASKS + HUBS * HELD_MOST };

/* Where the low words of all messages stand that the table has, or may have; how many. */
static uint32_t message_places(const uint32_t *table, size_t places[MESSAGES_MOST])
{
    uint32_t count = 0;

    for (uint32_t task = 0; task < tasks_in_use(table); task++)
        if (may_have_message(table, task))
            places[count++] = field_place(table, task, T_WORD);
    for (uint32_t hub = 0; hub < hubs_in_use(table); hub++) {
        uint32_t kind = hub_field(table, hub, H_KIND);
        for (uint32_t i = 0; (kind == FIFO || kind == BOARD) && i < hub_field(table, hub, H_COUNT);
             i++)
            places[count++] = held_place(table, hub, i);
    }
    return count;
}

int gen_one_high(gen_random *random, uint32_t *table)
{
    size_t places[MESSAGES_MOST];
    uint32_t count = message_places(table, places);

    if (count == 0)
        return 0;
    size_t place = places[gen_below(random, count)] + 1;
    table[place] = at_least(random, 1);
    return 1;
}

/* ---- Pairs of tables --------------------------------------------------- */

static uint32_t another_word(gen_random *random, uint32_t word)
{
    uint32_t other = gen_chance(random, 50) ? word ^ ONE_OF(random, 1, UINT32_C(1) << 31)
                                            : any_word(random);
    return other != word ? other : word + 1;
}

int gen_one_word(gen_random *random, uint32_t *table)
{
    size_t places[MESSAGES_MOST];
    uint32_t count = message_places(table, places);

    if (count == 0)
        return 0;
    size_t place = places[gen_below(random, count)];
    if (edition_of(table) == EDITION_2 && gen_chance(random, 50))
        place++;
    table[place] = another_word(random, table[place]);
    return 1;
}

/* A message none of whose words is 0. */
static void lay_full_message(gen_random *random, uint32_t *table, size_t place)
{
    for (uint32_t i = 0; i < layout_of(table)->message_words; i++)
        table[place + i] = at_least(random, 1);
}

static void build_full(gen_random *random, uint32_t *table)
{
    for (uint32_t hub = 0; hub < HUBS; hub++) {
        memcpy(table + hub_place(table, hub), ((uint32_t[]){FIFO, FIFO_MAX, FIFO_MAX, 0}),
               HUB_WORDS * sizeof *table);
        for (uint32_t i = 0; i < FIFO_MAX; i++)
            lay_full_message(random, table, held_place(table, hub, i));
    }
    for (uint32_t task = 0; task < TASKS; task++) {
        uint32_t *record = table + task_place(table, task);
        record[T_STATE] = READY;
        record[T_SUSPENDED] = gen_below(random, 2);
        record[T_PRIORITY] = gen_below(random, PRIORITY_MAX + 1);
        lay_full_message(random, table, task_place(table, task) + T_WORD);
        table[field_place(table, task, T_ANSWER)] = OK;
    }
    build_lists(random, table);
}

/* Each hub's count and limit are others than a full FIFO's, and its start isn't 0. */
static void build_awaited(gen_random *random, const uint32_t *full, uint32_t *table)
{
    for (uint32_t number = 0; number < HUBS; number++) {
        uint32_t *hub = table + hub_place(table, number);
        hub[H_KIND] = SEMAPHORE;
        hub[H_LIMIT] = from_to(random, FIFO_MAX + 1, SEMAPHORE_MAX);
        hub[H_START] = from_to(random, 1, hub[H_LIMIT]);
        hub[H_COUNT] = ONE_OF(random, 0, hub[H_LIMIT]);
    }
    for (uint32_t task = 0; task < TASKS; task++) {
        uint32_t *record = table + task_place(table, task);
        uint32_t priority = task_field(full, task, T_PRIORITY) + from_to(random, 1, PRIORITY_MAX);
        record[T_SUSPENDED] = 1 - task_field(full, task, T_SUSPENDED);
        record[T_PRIORITY] = priority % (PRIORITY_MAX + 1);
        build_waiter(random, table, task, gen_below(random, HUBS));
        if (record[T_TICKS] == 0)
            record[T_TICKS] = TICKS_MAX;
    }
    build_lists(random, table);
}

void gen_apart(gen_random *random, uint32_t edition, uint32_t *full, uint32_t *awaited)
{
    build_contents(full, edition, TASKS, HUBS);
    build_contents(awaited, edition, TASKS, HUBS);
    build_full(random, full);
    build_awaited(random, full, awaited);
}

void gen_last_word(gen_random *random, uint32_t edition, uint32_t *one, uint32_t *other)
{
    uint32_t last = layouts[edition - EDITION_1].words - 1;

    build_contents(one, edition, TASKS, HUBS);
    build_full(random, one);
    memcpy(other, one, (last + 1) * sizeof *one);
    other[last] = another_word(random, one[last]);
}

/* ---- Set-ups ----------------------------------------------------------- */

/* Every count of digits alike; least and most of them often. */
static uint32_t any_digits(gen_random *random, uint32_t least, uint32_t most)
{
    uint32_t low = 0, high = 9, lengths = 1;

    for (uint32_t rest = most; rest >= 10; rest /= 10)
        lengths++;
    for (uint32_t length = from_to(random, 1, lengths); length > 1; length--) {
        low = high + 1;
        high = high * 10 + 9;
    }
    if (low < least)
        low = least;
    if (high > most)
        high = most;
    if (low > high)
        return from_to(random, least, most);
    return gen_chance(random, 30) ? ONE_OF(random, low, high) : from_to(random, low, high);
}

static uint32_t draw_size(gen_random *random)
{
    return gen_chance(random, 50) ? ONE_OF(random, 0, 1, TASKS) : gen_below(random, TASKS + 1);
}

/* A Semaphore with limit and start from these on; its count at an end mostly. */
static void widen_semaphore(gen_random *random, uint32_t *hub, uint32_t least)
{
    hub[H_LIMIT] = any_digits(random, least > 1 ? least : 1, SEMAPHORE_MAX);
    hub[H_START] = any_digits(random, least, hub[H_LIMIT]);
    hub[H_COUNT] = gen_chance(random, 60) ? ONE_OF(random, 0, hub[H_LIMIT])
                                          : any_digits(random, 0, hub[H_LIMIT]);
}

void gen_set_up(gen_random *random, uint32_t edition, uint32_t *table)
{
    int longest = gen_chance(random, 5);
    gen_mood mood;

    gen_draw_mood(random, &mood);
    mood.tasks = longest ? TASKS : draw_size(random);
    mood.hubs = longest ? HUBS : draw_size(random);
    build_contents(table, edition, mood.tasks, mood.hubs);
    for (uint32_t task = 0; task < mood.tasks; task++)
        table[task_place(table, task) + T_PRIORITY] =
            any_digits(random, longest ? 100 : 0, PRIORITY_MAX);
    for (uint32_t hub = 0; hub < mood.hubs; hub++) {
        uint32_t kind = longest ? (uint32_t)SEMAPHORE : draw_kind(random, &mood);
        build_hub(random, table, hub, kind);
        if (kind == SEMAPHORE)
            widen_semaphore(random, table + hub_place(table, hub), longest ? 10000 : 0);
    }
    build_tasks(random, table, &mood);
}

int gen_change(gen_random *random, gen_place place, uint32_t *table)
{
    uint32_t count = place == GEN_PRIORITY ? tasks_in_use(table) : hubs_in_use(table);
    uint32_t number = gen_below(random, count), *hub = table + hub_place(table, number), *at, old;

    if (count == 0)
        return 0;
    at = place == GEN_PRIORITY ? table + task_place(table, number) + T_PRIORITY
         : place == GEN_KIND   ? hub + H_KIND
         : place == GEN_LIMIT  ? hub + H_LIMIT
                               : hub + H_START;
    old = *at;
    switch (place) {
    case GEN_PRIORITY:
        *at = any_digits(random, 0, PRIORITY_MAX);
        break;
    case GEN_KIND:
        *at = from_to(random, EVENT, MEMORY);
        break;
    case GEN_LIMIT:
        *at = any_digits(random, 1, hub[H_KIND] == FIFO || hub[H_KIND] == MEMORY ? FIFO_MAX
                                                                                 : SEMAPHORE_MAX);
        break;
    case GEN_START:
        *at = any_digits(random, 0, hub[H_LIMIT]);
        break;
    }
    return *at != old;
}

/* ---- Damaged tables ---------------------------------------------------- */

/* A damage breaks one clause of a well-formed table, and no other where the
 * clauses allow it. It gives 0 when the table has no place for it. */
typedef struct damage damage;
struct damage {
    const char *name;
    int clause;
    int (*make)(gen_random *random, uint32_t *table, const damage *family);
    uint32_t which; /* a contents word, a state, a kind of hub or of list */
    uint32_t field; /* a field of that record, or a side */
    uint32_t least; /* the wrong value is this or more */
};

enum { ANY = 0 };

static void take_out(uint32_t *list, uint32_t at)
{
    memmove(list + at, list + at + 1, (LIST_WORDS - 1 - at) * sizeof *list);
    list[LIST_WORDS - 1] = 0;
}

static uint32_t *list_of(uint32_t *table, uint32_t task)
{
    return table + list_place(table, task_field(table, task, T_HUB) - 1);
}

static uint32_t place_in(const uint32_t *list, uint32_t task)
{
    uint32_t at = 0;
    while (list[at] != task + 1)
        at++;
    return at;
}

/* A hub of this kind (ANY: all kinds) and at least so many waiters. */
static uint32_t pick_hub(gen_random *random, const uint32_t *table, uint32_t kind,
                         uint32_t waiters)
{
    uint32_t hubs = hubs_in_use(table), first = hubs > 0 ? gen_below(random, hubs) : 0;

    for (uint32_t i = 0; i < hubs; i++) {
        uint32_t hub = (first + i) % hubs;
        if ((kind == ANY || hub_field(table, hub, H_KIND) == kind) &&
            list_length(table + list_place(table, hub)) >= waiters)
            return hub;
    }
    return NOBODY;
}

/* A hub of this kind that nobody waits at, emptied (a Memory with every block in it): still
 * well formed, and whatever its record then says, no waiter makes a second clause break. */
static uint32_t pick_quiet_hub(gen_random *random, uint32_t *table, uint32_t kind)
{
    uint32_t hub = pick_hub(random, table, kind, 0);

    if (hub == NOBODY || table[list_place(table, hub)] != 0)
        return NOBODY;
    uint32_t start = kind == MEMORY ? hub_field(table, hub, H_LIMIT) : 0;
    table[hub_place(table, hub) + H_COUNT] = start;
    table[hub_place(table, hub) + H_START] = start;
    memset(table + store_place(table, hub), 0, store_words(table) * sizeof *table);
    return hub;
}

/* A hub of this kind whose waiters (so many at least) are of this side. */
static uint32_t pick_sided_hub(gen_random *random, const uint32_t *table, uint32_t kind,
                               uint32_t side, uint32_t waiters)
{
    uint32_t hub = pick_hub(random, table, kind, waiters);

    if (hub == NOBODY || task_field(table, table[list_place(table, hub)] - 1, T_SIDE) != side)
        return NOBODY;
    return hub;
}

/* Contents. */

static int spoil_contents(gen_random *random, uint32_t *table, const damage *family)
{
    uint32_t right = table[family->which];

    if (family->least != 0)
        table[family->which] = at_least(random, family->least);
    else
        table[family->which] = gen_chance(random, 50) ? right + 1 : gen_word(random);
    return table[family->which] != right;
}

/* What the other edition has in its contents: `which` says whether that is the edition,
 * the starts, of which the first is the same in both, one of them, or edition and starts. */
enum { OTHER_EDITION = 1, OTHER_STARTS = 2, OTHER_START = 4 };

static int others_contents(gen_random *random, uint32_t *table, const damage *family)
{
    const layout *other = &layouts[EDITION_2 - edition_of(table)];
    const uint32_t starts[] = {TASKS_AT, other->hubs_at, other->ready_at, other->waiting_at,
                               other->stores_at};

    if ((family->which & OTHER_START) != 0) {
        uint32_t one = from_to(random, 1, 4);
        table[STARTS_AT + one] = starts[one];
    }
    if ((family->which & OTHER_STARTS) != 0)
        memcpy(table + STARTS_AT, starts, sizeof starts);
    if ((family->which & OTHER_EDITION) != 0)
        table[EDITION_AT] = other->edition;
    return 1;
}

/* The same where nothing else can be wrong: no hub, and no task or an inactive one, which
 * reads the same in both editions. So the edition alone decides. */
static int others_empty(gen_random *random, uint32_t *table, const damage *family)
{
    uint32_t tasks = gen_below(random, 2);

    memset(table + TASKS_AT, 0, (layout_of(table)->words - TASKS_AT) * sizeof *table);
    table[TASKS_IN_USE_AT] = tasks;
    table[HUBS_IN_USE_AT] = 0;
    if (tasks > 0) {
        table[task_place(table, 0) + T_STATE] = INACTIVE;
        table[task_place(table, 0) + T_PRIORITY] = from_to(random, 0, PRIORITY_MAX);
    }
    return others_contents(random, table, family);
}

/* A whole table of the other edition, cut short or with zeros behind it. */
static int others_table(gen_random *random, uint32_t *table, const damage *family)
{
    const layout *of = layout_of(table), *other = &layouts[EDITION_2 - of->edition];
    uint32_t drawn[WORDS_MOST] = {0};

    (void)family;
    gen_table(random, other->edition, drawn);
    memcpy(table, drawn, of->words * sizeof *table);
    return 1;
}

static int one_task_less(gen_random *random, uint32_t *table, const damage *family)
{
    uint32_t tasks = tasks_in_use(table);

    (void)random, (void)family;
    if (tasks == 0 || task_field(table, tasks - 1, T_STATE) != INACTIVE)
        return 0;
    table[TASKS_IN_USE_AT]--;
    return 1;
}

static int one_hub_less(gen_random *random, uint32_t *table, const damage *family)
{
    uint32_t hubs = hubs_in_use(table);

    (void)random, (void)family;
    if (hubs == 0 || table[list_place(table, hubs - 1)] != 0)
        return 0;
    table[HUBS_IN_USE_AT]--;
    return 1;
}

static int one_more(gen_random *random, uint32_t *table, const damage *family)
{
    (void)random;
    return ++table[family->which] <= TASKS;
}

/* A word in the unused part of a body; with field 1 a high word. */
enum { TASK_BODY, HUB_BODY, LIST_BODY, STORE_BODY };

static int spoil_unused(gen_random *random, uint32_t *table, const damage *family)
{
    const uint32_t starts[] = {TASKS_AT, (uint32_t)hub_place(table, 0),
                               (uint32_t)list_place(table, 0), (uint32_t)store_place(table, 0)};
    const uint32_t words[] = {layout_of(table)->task_words, HUB_WORDS, LIST_WORDS,
                              (uint32_t)store_words(table)};
    uint32_t in_use = family->which == TASK_BODY ? tasks_in_use(table) : hubs_in_use(table);
    uint32_t part = words[family->which], *at;

    if (in_use == TASKS)
        return 0;
    at = table + starts[family->which] + from_to(random, in_use * part, TASKS * part - 1);
    if (family->field == 1 && family->which == TASK_BODY)
        at = table + field_place(table, from_to(random, in_use, TASKS - 1), T_HIGH);
    if (family->field == 1 && family->which == STORE_BODY) {
        uint32_t hub = from_to(random, in_use, HUBS - 1); /* before the number: see the head */
        at = table + held_place(table, hub, gen_below(random, HELD_MOST)) + 1;
    }
    *at = at_least(random, 1);
    return 1;
}

/* Task records. */

static int spoil_task(gen_random *random, uint32_t *table, const damage *family)
{
    uint32_t task = pick_task(random, table, T_STATE, family->which);

    if (task == NOBODY)
        return 0;
    table[field_place(table, task, family->field)] = at_least(random, family->least);
    return 1;
}

static int clear_task_field(gen_random *random, uint32_t *table, const damage *family)
{
    uint32_t task = pick_task(random, table, T_STATE, family->which);

    if (task == NOBODY)
        return 0;
    table[field_place(table, task, family->field)] = 0;
    return 1;
}

static int suspend_inactive(gen_random *random, uint32_t *table, const damage *family)
{
    uint32_t task = pick_task(random, table, T_STATE, INACTIVE);

    (void)family;
    if (task == NOBODY)
        return 0;
    table[task_place(table, task) + T_SUSPENDED] = 1;
    return 1;
}

/* Ready, with a word (with field 1 a high word only), answer which. */
static int word_without_ok(gen_random *random, uint32_t *table, const damage *family)
{
    uint32_t task = pick_task(random, table, T_STATE, READY);

    if (task == NOBODY)
        return 0;
    lay_message(table, task_place(table, task) + T_WORD, 0);
    table[field_place(table, task, family->field == 1 ? T_HIGH : T_WORD)] = at_least(random, 1);
    table[field_place(table, task, T_ANSWER)] = family->which;
    return 1;
}

/* A waiter at no hub in use, and in no list: that hub has none. */
static int waits_nowhere(gen_random *random, uint32_t *table, const damage *family)
{
    uint32_t task = pick_task(random, table, T_STATE, WAITING);

    if (task == NOBODY)
        return 0;
    take_out(list_of(table, task), place_in(list_of(table, task), task));
    table[task_place(table, task) + T_HUB] =
        family->which == 0 ? 0 : at_least(random, hubs_in_use(table) + 1);
    return 1;
}

/* A waiter of side field at kind which has a word it may not have; with least 1 a high
 * word. */
static int waits_with_word(gen_random *random, uint32_t *table, const damage *family)
{
    uint32_t hub = pick_sided_hub(random, table, family->which, family->field, 1);

    if (hub == NOBODY)
        return 0;
    table[field_place(table, table[list_place(table, hub)] - 1,
                      family->least == 1 ? T_HIGH : T_WORD)] = at_least(random, 1);
    return 1;
}

/* Nobody waits to wipe. */
static int wiper_waits(gen_random *random, uint32_t *table, const damage *family)
{
    uint32_t hub = pick_hub(random, table, BOARD, 1);

    (void)family;
    if (hub == NOBODY)
        return 0;
    const uint32_t *list = table + list_place(table, hub);
    table[task_place(table, list[gen_below(random, list_length(list))] - 1) + T_SIDE] = WIPE;
    return 1;
}

/* Hub records. */

static int spoil_hub(gen_random *random, uint32_t *table, const damage *family)
{
    uint32_t hub = pick_quiet_hub(random, table, family->which);

    if (hub == NOBODY)
        return 0;
    table[hub_place(table, hub) + family->field] = at_least(random, family->least);
    return 1;
}

static int clear_hub_field(gen_random *random, uint32_t *table, const damage *family)
{
    uint32_t hub = pick_quiet_hub(random, table, family->which);

    if (hub == NOBODY)
        return 0;
    table[hub_place(table, hub) + family->field] = 0;
    return 1;
}

static int above_limit(gen_random *random, uint32_t *table, const damage *family)
{
    uint32_t hub = pick_quiet_hub(random, table, family->which);

    if (hub == NOBODY)
        return 0;
    table[hub_place(table, hub) + family->field] =
        at_least(random, hub_field(table, hub, H_LIMIT) + 1);
    return 1;
}

/* One word more than its limit, and there it is in the store. */
static int overfull_fifo(gen_random *random, uint32_t *table, const damage *family)
{
    uint32_t hub = pick_quiet_hub(random, table, FIFO);

    (void)family;
    if (hub == NOBODY || hub_field(table, hub, H_LIMIT) == FIFO_MAX)
        return 0;
    table[hub_place(table, hub) + H_COUNT] = hub_field(table, hub, H_LIMIT) + 1;
    for (uint32_t i = 0; i < hub_field(table, hub, H_COUNT); i++)
        draw_held(random, table, hub, i);
    return 1;
}

/* As a FIFO would hold them. */
static int two_words_on_board(gen_random *random, uint32_t *table, const damage *family)
{
    uint32_t hub = pick_quiet_hub(random, table, BOARD);

    (void)family;
    if (hub == NOBODY)
        return 0;
    table[hub_place(table, hub) + H_COUNT] = 2;
    for (uint32_t i = 0; i < 2; i++)
        draw_held(random, table, hub, i);
    return 1;
}

/* A Memory of no block or of too many: limit, start and count agree all the same. */
static int spoil_blocks(gen_random *random, uint32_t *table, const damage *family)
{
    uint32_t hub = pick_quiet_hub(random, table, MEMORY);

    if (hub == NOBODY)
        return 0;
    uint32_t blocks = family->least == 0 ? 0 : at_least(random, family->least);
    table[hub_place(table, hub) + H_LIMIT] = blocks;
    table[hub_place(table, hub) + H_START] = blocks;
    table[hub_place(table, hub) + H_COUNT] = blocks;
    return 1;
}

/* The start is below the limit. */
static int memory_start(gen_random *random, uint32_t *table, const damage *family)
{
    uint32_t hub = pick_quiet_hub(random, table, MEMORY);

    (void)family;
    if (hub == NOBODY)
        return 0;
    table[hub_place(table, hub) + H_START] = gen_below(random, hub_field(table, hub, H_LIMIT));
    return 1;
}

/* A Memory with at least so many blocks out and so many free, that nobody waits at. */
static uint32_t pick_memory(gen_random *random, const uint32_t *table, uint32_t out, uint32_t free)
{
    uint32_t hub = pick_hub(random, table, MEMORY, 0);

    if (hub == NOBODY || table[list_place(table, hub)] != 0)
        return NOBODY;
    uint32_t count = hub_field(table, hub, H_COUNT), limit = hub_field(table, hub, H_LIMIT);
    return count >= free && limit - count >= out ? hub : NOBODY;
}

/* The place of the mark of one of a Memory's blocks that has this mark; there is one. */
static size_t pick_mark(gen_random *random, const uint32_t *table, uint32_t hub, uint32_t mark)
{
    uint32_t limit = hub_field(table, hub, H_LIMIT), block = gen_below(random, limit);

    while (table[held_place(table, hub, block)] != mark)
        block = (block + 1) % limit;
    return held_place(table, hub, block);
}

/* The count isn't how many are free: one more or less than it is, within the limit. */
static int wrong_free(gen_random *random, uint32_t *table, const damage *family)
{
    uint32_t hub = pick_memory(random, table, family->field == 1 ? 1 : 0,
                               family->field == 1 ? 0 : 1);

    if (hub == NOBODY)
        return 0;
    uint32_t *count = table + hub_place(table, hub) + H_COUNT;
    uint32_t least = family->field == 1 ? *count + 1 : 0;
    uint32_t most = family->field == 1 ? hub_field(table, hub, H_LIMIT) : *count - 1;
    *count = from_to(random, least, most);
    return 1;
}

/* A block is marked, or loses its mark, and the count stays: field is the mark it gets. */
static int wrong_mark(gen_random *random, uint32_t *table, const damage *family)
{
    uint32_t hub = pick_memory(random, table, 1 - family->field, family->field);

    if (hub == NOBODY)
        return 0;
    table[pick_mark(random, table, hub, 1 - family->field)] = family->field;
    return 1;
}

/* Getters wait at count 0, yet a block has no mark. */
static int unmarked_while_awaited(gen_random *random, uint32_t *table, const damage *family)
{
    uint32_t hub = pick_hub(random, table, MEMORY, 1);

    (void)family;
    if (hub == NOBODY)
        return 0;
    table[pick_mark(random, table, hub, 1)] = 0;
    return 1;
}

static int owner_not_in_use(gen_random *random, uint32_t *table, const damage *family)
{
    uint32_t hub = pick_quiet_hub(random, table, RESOURCE);

    (void)family;
    if (hub == NOBODY)
        return 0;
    table[hub_place(table, hub) + H_COUNT] = at_least(random, tasks_in_use(table) + 1);
    return 1;
}

/* An inactive task owns a Resource that nobody waits for, or which tasks do. */
static int owner_inactive(gen_random *random, uint32_t *table, const damage *family)
{
    uint32_t hub = family->which == 0 ? pick_quiet_hub(random, table, RESOURCE)
                                      : pick_hub(random, table, RESOURCE, 1);
    uint32_t task = pick_task(random, table, T_STATE, INACTIVE);

    if (hub == NOBODY || task == NOBODY)
        return 0;
    table[hub_place(table, hub) + H_COUNT] = task + 1;
    return 1;
}

/* What Stop left before M-101: an owner inactive and in no list, its locks kept. */
static int owner_stopped(gen_random *random, uint32_t *table, const damage *family)
{
    uint32_t owner = pick_owner(random, table, NOBODY), *list;

    (void)family;
    if (owner == NOBODY)
        return 0;
    uint32_t *task = table + task_place(table, owner), priority = task[T_PRIORITY];
    if (task[T_STATE] != SLEEPING) {
        list = task[T_STATE] == READY ? table + ready_place(table) : list_of(table, owner);
        take_out(list, place_in(list, owner));
    }
    memset(task, 0, layout_of(table)->task_words * sizeof *task);
    task[T_STATE] = INACTIVE;
    task[T_PRIORITY] = priority;
    return 1;
}

/* Lists. `which` is READY for the ready list, WAITING for a hub's. */

static uint32_t *pick_list(gen_random *random, uint32_t *table, const damage *family,
                           uint32_t least, uint32_t most)
{
    uint32_t *list = table + ready_place(table);

    if (family->which == WAITING) {
        uint32_t hub = pick_hub(random, table, ANY, least);
        if (hub == NOBODY)
            return NULL;
        list = table + list_place(table, hub);
    }
    return list_length(list) >= least && list_length(list) <= most ? list : NULL;
}

static void make_room(uint32_t *list, uint32_t at)
{
    memmove(list + at + 1, list + at, (LIST_WORDS - 1 - at) * sizeof *list);
}

static int gap_in_list(gen_random *random, uint32_t *table, const damage *family)
{
    uint32_t *list = pick_list(random, table, family, 1, LIST_WORDS - 1);

    if (list == NULL)
        return 0;
    uint32_t at = gen_below(random, list_length(list));
    make_room(list, at);
    list[at] = 0;
    return 1;
}

static int twice_in_list(gen_random *random, uint32_t *table, const damage *family)
{
    uint32_t *list = pick_list(random, table, family, 1, LIST_WORDS - 1);

    if (list == NULL)
        return 0;
    make_room(list, gen_below(random, list_length(list))); /* leaves the entry doubled */
    return 1;
}

/* The length stays right: one is there twice and another not at all. */
static int twice_for_another(gen_random *random, uint32_t *table, const damage *family)
{
    uint32_t *list = pick_list(random, table, family, 2, LIST_WORDS);

    if (list == NULL)
        return 0;
    uint32_t at = from_to(random, 1, list_length(list) - 1);
    list[at] = list[at - 1];
    return 1;
}

static int missing_in_list(gen_random *random, uint32_t *table, const damage *family)
{
    uint32_t *list = pick_list(random, table, family, 1, LIST_WORDS);

    if (list == NULL)
        return 0;
    take_out(list, gen_below(random, list_length(list)));
    return 1;
}

/* A task of another state, at the right place for its priority. */
static int stranger_in_list(gen_random *random, uint32_t *table, const damage *family)
{
    uint32_t *list = pick_list(random, table, family, 0, LIST_WORDS - 1);
    uint32_t stranger = pick_task(random, table, T_STATE, family->field), ranks[TASKS];

    if (list == NULL || stranger == NOBODY)
        return 0;
    rank_tasks(table, ranks);
    insert(random, ranks, list, stranger);
    return 1;
}

/* A waiter in the list of a hub that isn't its own. */
static int in_another_list(gen_random *random, uint32_t *table, const damage *family)
{
    uint32_t task = pick_task(random, table, T_STATE, WAITING);
    uint32_t hub = pick_hub(random, table, ANY, 0), ranks[TASKS];

    (void)family;
    if (task == NOBODY || hub == task_field(table, task, T_HUB) - 1)
        return 0;
    rank_tasks(table, ranks);
    take_out(list_of(table, task), place_in(list_of(table, task), task));
    insert(random, ranks, table + list_place(table, hub), task);
    return 1;
}

/* An entry behind the last that is no task in use. */
static int no_task_in_list(gen_random *random, uint32_t *table, const damage *family)
{
    uint32_t *list = pick_list(random, table, family, 0, LIST_WORDS - 1);

    if (list == NULL)
        return 0;
    list[list_length(list)] = at_least(random, tasks_in_use(table) + 1);
    return 1;
}

/* As above, but in the place of a task. */
static int no_task_for_another(gen_random *random, uint32_t *table, const damage *family)
{
    uint32_t *list = pick_list(random, table, family, 1, LIST_WORDS);

    if (list == NULL)
        return 0;
    uint32_t at = gen_below(random, list_length(list));
    list[at] = at_least(random, tasks_in_use(table) + 1);
    return 1;
}

static int wrong_order(gen_random *random, uint32_t *table, const damage *family)
{
    uint32_t *list = pick_list(random, table, family, 2, LIST_WORDS);

    if (list == NULL)
        return 0;
    uint32_t at = gen_below(random, list_length(list) - 1), first = list[at], then = list[at + 1];
    uint32_t ranks[TASKS];
    rank_tasks(table, ranks);
    if (ranks[first - 1] == ranks[then - 1])
        return 0;
    list[at] = then;
    list[at + 1] = first;
    return 1;
}

/* Order by inherited priorities. `which` is READY, WAITING, or ANY for all lists. */

static void sort_list(uint32_t *list, const uint32_t *ranks)
{
    for (uint32_t i = 1; i < list_length(list); i++)
        for (uint32_t j = i; j > 0 && ranks[list[j] - 1] < ranks[list[j - 1] - 1]; j--) {
            uint32_t moved = list[j];
            list[j] = list[j - 1];
            list[j - 1] = moved;
        }
}

static int falls(const uint32_t *list, const uint32_t *ranks)
{
    for (uint32_t i = 1; i < list_length(list); i++)
        if (ranks[list[i] - 1] < ranks[list[i - 1] - 1])
            return 1;
    return 0;
}

/* Lists as a program orders them that looks only so many owners far: own priority with 0,
 * direct waiters with 1. */
static int wrong_ranks(gen_random *random, uint32_t *table, const damage *family)
{
    uint32_t ranks[TASKS], wrong[TASKS], call[CALL_NUMBERS];
    int any = 0;

    gen_chain(random, edition_of(table), table, call);
    rank_tasks(table, ranks);
    rank_to_depth(table, family->field, wrong);
    if (family->which != WAITING) {
        sort_list(table + ready_place(table), wrong);
        any = falls(table + ready_place(table), ranks);
    }
    for (uint32_t hub = 0; family->which != READY && hub < hubs_in_use(table); hub++) {
        sort_list(table + list_place(table, hub), wrong);
        any |= falls(table + list_place(table, hub), ranks);
    }
    return any;
}

/* Two neighbours exchanged, one of which has inherited; with field 1 their ranks are one
 * apart; with field 2 it is in a ring. */
static int wrong_inherited(gen_random *random, uint32_t *table, const damage *family)
{
    uint32_t ranks[TASKS], call[CALL_NUMBERS], *list;
    int ring;

    gen_chain(random, edition_of(table), table, call);
    if ((list = pick_list(random, table, family, 2, LIST_WORDS)) == NULL)
        return 0;
    uint32_t at = gen_below(random, list_length(list) - 1), first = list[at], then = list[at + 1];
    uint32_t heir = gen_chance(random, 50) ? first - 1 : then - 1;
    rank_tasks(table, ranks);
    if (ranks[first - 1] == ranks[then - 1] || ranks[heir] == task_field(table, heir, T_PRIORITY))
        return 0;
    if (family->field == 1 && ranks[then - 1] != ranks[first - 1] + 1)
        return 0;
    if (family->field == 2 && owners_before(table, heir, NOBODY, &ring) < TASKS)
        return 0;
    list[at] = then;
    list[at + 1] = first;
    return 1;
}

/* All 16 tasks in one list, the ready list or a Port's, and the last two exchanged. */
static int wrong_at_end(gen_random *random, uint32_t *table, const damage *family)
{
    build_contents(table, edition_of(table), TASKS, HUBS);
    build_priorities(random, table, PRIORITY_MAX + 1);
    for (uint32_t hub = 0; hub < HUBS; hub++)
        build_hub(random, table, hub, PORT);
    for (uint32_t task = 0; task < TASKS; task++) {
        build_caller(table, task);
        if (family->which == WAITING)
            build_waiter(random, table, task, 0);
    }
    build_lists(random, table);
    uint32_t *last = pick_list(random, table, family, LIST_WORDS, LIST_WORDS);
    if (last == NULL)
        return 0;
    last += LIST_WORDS - 1;
    uint32_t before = last[-1];
    last[-1] = *last;
    *last = before;
    return task_field(table, last[-1] - 1, T_PRIORITY) != task_field(table, *last - 1, T_PRIORITY);
}

/* A ring of 16 in whose lists stand 16 tasks each, all of them, or all but the owner, or one
 * 16 times: whoever asks such lists who waits for whom is asked 16 times at each of 16
 * tasks. */
static int crowded_lists(gen_random *random, uint32_t *table, const damage *family)
{
    build_contents(table, edition_of(table), TASKS, HUBS);
    build_priorities(random, table, PRIORITY_MAX + 1);
    for (uint32_t hub = 0; hub < HUBS; hub++)
        memcpy(table + hub_place(table, hub), ((uint32_t[]){RESOURCE, hub + 1, 1, 0}),
               HUB_WORDS * sizeof *table);
    for (uint32_t task = 0; task < TASKS; task++)
        build_waiter(random, table, task, (task + 1) % HUBS);
    for (uint32_t hub = 0; hub < HUBS; hub++)
        for (uint32_t i = 0, at = 0; i < TASKS; i++)
            if (family->field != 1 || i != hub)
                table[list_place(table, hub) + at++] =
                    family->field == 2 ? (hub + TASKS - 1) % TASKS + 1 : i + 1;
    return 1;
}

/* Who may wait. */

/* One waiter of kind which turns to the other side. */
static int two_sides(gen_random *random, uint32_t *table, const damage *family)
{
    uint32_t hub = pick_hub(random, table, family->which, 2);

    if (hub == NOBODY)
        return 0;
    const uint32_t *list = table + list_place(table, hub);
    uint32_t *task = table + task_place(table, list[gen_below(random, list_length(list))] - 1);
    task[T_SIDE] = task[T_SIDE] == PUT ? GET : PUT;
    lay_message(table, (size_t)(task - table) + T_WORD, 0);
    return 1;
}

/* Getters at an Event or Semaphore above 0, at a FIFO that holds a word or at a
 * written Board. */
static int getters_at_something(gen_random *random, uint32_t *table, const damage *family)
{
    uint32_t hub = pick_sided_hub(random, table, family->which, GET, 1);

    if (hub == NOBODY)
        return 0;
    table[hub_place(table, hub) + H_COUNT] = from_to(random, 1, hub_field(table, hub, H_LIMIT));
    for (uint32_t i = 0; (family->which == FIFO || family->which == BOARD) &&
                         i < hub_field(table, hub, H_COUNT); i++)
        draw_held(random, table, hub, i);
    return 1;
}

static int getters_at_free(gen_random *random, uint32_t *table, const damage *family)
{
    uint32_t hub = pick_hub(random, table, RESOURCE, 1);

    (void)family;
    if (hub == NOBODY)
        return 0;
    table[hub_place(table, hub) + H_COUNT] = 0;
    return 1;
}

static int owner_waits(gen_random *random, uint32_t *table, const damage *family)
{
    uint32_t hub = pick_hub(random, table, RESOURCE, 1);

    (void)family;
    if (hub == NOBODY)
        return 0;
    const uint32_t *list = table + list_place(table, hub);
    table[hub_place(table, hub) + H_COUNT] = list[gen_below(random, list_length(list))];
    return 1;
}

/* Putters at an Event, Semaphore or FIFO below its limit. */
static int putters_below_limit(gen_random *random, uint32_t *table, const damage *family)
{
    uint32_t hub = pick_sided_hub(random, table, family->which, PUT, 1);

    if (hub == NOBODY)
        return 0;
    uint32_t count = gen_below(random, hub_field(table, hub, H_LIMIT));
    table[hub_place(table, hub) + H_COUNT] = count;
    for (uint32_t i = count; family->which == FIFO && i < HELD_MOST; i++)
        lay_message(table, held_place(table, hub, i), 0);
    return 1;
}

/* Getters wait though a block is free; with field 1 the count says so and no mark does. */
static int getters_at_blocks(gen_random *random, uint32_t *table, const damage *family)
{
    uint32_t hub = pick_hub(random, table, MEMORY, 1);

    if (hub == NOBODY)
        return 0;
    if (family->field == 0)
        table[pick_mark(random, table, hub, 1)] = 0;
    table[hub_place(table, hub) + H_COUNT] = 1;
    return 1;
}

/* Putters where getters waited for a block; with field 1 every block is in, so that it stands
 * as a Semaphore with putters does. */
static int putters_at_blocks(gen_random *random, uint32_t *table, const damage *family)
{
    uint32_t hub = pick_hub(random, table, MEMORY, 1);

    if (hub == NOBODY)
        return 0;
    const uint32_t *list = table + list_place(table, hub);
    for (uint32_t i = 0; i < list_length(list); i++)
        table[task_place(table, list[i] - 1) + T_SIDE] = PUT;
    if (family->field == 1) {
        memset(table + store_place(table, hub), 0, store_words(table) * sizeof *table);
        table[hub_place(table, hub) + H_COUNT] = hub_field(table, hub, H_LIMIT);
    }
    return 1;
}

/* The getters of kind which turn to the other side, where only getters wait; with
 * field 1 the Board is written, so that it stands as an Event with putters does. */
static int putters_for_getters(gen_random *random, uint32_t *table, const damage *family)
{
    uint32_t hub = pick_hub(random, table, family->which, 1);

    if (hub == NOBODY)
        return 0;
    const uint32_t *list = table + list_place(table, hub);
    for (uint32_t i = 0; i < list_length(list); i++)
        table[task_place(table, list[i] - 1) + T_SIDE] = PUT;
    if (family->field == 1) {
        table[hub_place(table, hub) + H_COUNT] = 1;
        draw_held(random, table, hub, 0);
    }
    return 1;
}

/* Stores. */

static int word_in_store(gen_random *random, uint32_t *table, const damage *family)
{
    uint32_t hub = pick_hub(random, table, family->which, 0);

    if (hub == NOBODY)
        return 0;
    uint32_t held = family->which == FIFO ? hub_field(table, hub, H_COUNT) : 0;
    if (held == HELD_MOST)
        return 0;
    uint32_t words = (uint32_t)store_words(table);
    uint32_t at = from_to(random, held * words / HELD_MOST, words - 1);
    table[store_place(table, hub) + at] = at_least(random, 1);
    return 1;
}

/* A high word alone behind what the hub of kind which holds; a Board that holds so many
 * as `field` says. */
static int high_in_store(gen_random *random, uint32_t *table, const damage *family)
{
    uint32_t hub = pick_hub(random, table, family->which, 0), held = 0;

    if (hub == NOBODY)
        return 0;
    if (family->which == FIFO || family->which == BOARD)
        held = hub_field(table, hub, H_COUNT);
    if (held == HELD_MOST || (family->which == BOARD && held != family->field))
        return 0;
    uint32_t at = gen_chance(random, 50) ? held : from_to(random, held, HELD_MOST - 1);
    table[held_place(table, hub, at) + 1] = at_least(random, 1);
    return 1;
}

/* A word behind the Board's own, or in any place of one that has none: `field` is
 * how many it has. */
static int word_on_board(gen_random *random, uint32_t *table, const damage *family)
{
    uint32_t hub = pick_hub(random, table, BOARD, 0);

    if (hub == NOBODY || hub_field(table, hub, H_COUNT) != family->field)
        return 0;
    uint32_t words = (uint32_t)store_words(table), least = family->field * words / HELD_MOST;
    uint32_t at = gen_chance(random, 50) ? least : from_to(random, least, words - 1);
    table[store_place(table, hub) + at] = at_least(random, 1);
    return 1;
}

/* A mark above 1 for a block that is out (field 1) or isn't (field 0). */
static int mark_above_1(gen_random *random, uint32_t *table, const damage *family)
{
    uint32_t hub = pick_memory(random, table, family->field, 1 - family->field);

    if (hub == NOBODY)
        return 0;
    size_t place = pick_mark(random, table, hub, family->field);
    table[place] = at_least(random, 2);
    return 1;
}

/* A mark of 2 makes up for that of another block, which has none then. */
static int mark_for_two(gen_random *random, uint32_t *table, const damage *family)
{
    uint32_t hub = pick_memory(random, table, 2, 0);

    (void)family;
    if (hub == NOBODY)
        return 0;
    table[pick_mark(random, table, hub, 1)] = 0;
    table[pick_mark(random, table, hub, 1)] = 2;
    return 1;
}

/* A mark where the Memory has no block: with field 0 the first such place, with 1 any, with
 * 2 any, and one of its own blocks has none instead. */
static int mark_past_limit(gen_random *random, uint32_t *table, const damage *family)
{
    uint32_t hub = pick_memory(random, table, family->field == 2 ? 1 : 0, 0);

    if (hub == NOBODY || hub_field(table, hub, H_LIMIT) == BLOCKS_MAX)
        return 0;
    uint32_t limit = hub_field(table, hub, H_LIMIT);
    uint32_t at = family->field == 0 ? limit : from_to(random, limit, BLOCKS_MAX - 1);
    if (family->field == 2)
        table[pick_mark(random, table, hub, 1)] = 0;
    table[held_place(table, hub, at)] = 1;
    return 1;
}

/* A high word in the mark of a block that is out (field 1) or isn't; with field 2 where there
 * is no block. */
static int high_in_mark(gen_random *random, uint32_t *table, const damage *family)
{
    uint32_t hub = pick_memory(random, table, family->field == 1 ? 1 : 0,
                               family->field == 0 ? 1 : 0);

    if (hub == NOBODY)
        return 0;
    uint32_t limit = hub_field(table, hub, H_LIMIT);
    if (family->field == 2 && limit == BLOCKS_MAX)
        return 0;
    size_t place = family->field == 2
                       ? held_place(table, hub, from_to(random, limit, BLOCKS_MAX - 1))
                       : pick_mark(random, table, hub, family->field);
    table[place + 1] = at_least(random, 1);
    return 1;
}

static const damage damages[] = {
    {"contents: edition", SECOND_CONTENTS, spoil_contents, EDITION_AT, 0, 0},
    {"contents: tasks above 16", SECOND_CONTENTS, spoil_contents, TASKS_IN_USE_AT, 0, TASKS + 1},
    {"contents: hubs above 16", SECOND_CONTENTS, spoil_contents, HUBS_IN_USE_AT, 0, HUBS + 1},
    {"contents: start of tasks", SECOND_CONTENTS, spoil_contents, STARTS_AT, 0, 0},
    {"contents: start of hubs", SECOND_CONTENTS, spoil_contents, STARTS_AT + 1, 0, 0},
    {"contents: start of ready list", SECOND_CONTENTS, spoil_contents, STARTS_AT + 2, 0, 0},
    {"contents: start of waiting lists", SECOND_CONTENTS, spoil_contents, STARTS_AT + 3, 0, 0},
    {"contents: start of stores", SECOND_CONTENTS, spoil_contents, STARTS_AT + 4, 0, 0},

    {"unused: one task less", SECOND_UNUSED, one_task_less, 0, 0, 0},
    {"unused: one hub less", SECOND_UNUSED, one_hub_less, 0, 0, 0},
    {"unused: task record", SECOND_UNUSED, spoil_unused, TASK_BODY, 0, 0},
    {"unused: hub record", SECOND_UNUSED, spoil_unused, HUB_BODY, 0, 0},
    {"unused: waiting list", SECOND_UNUSED, spoil_unused, LIST_BODY, 0, 0},
    {"unused: store", SECOND_UNUSED, spoil_unused, STORE_BODY, 0, 0},

    {"task: one more than there are", SECOND_TASK_RANGE, one_more, TASKS_IN_USE_AT, 0, 0},
    {"task: state 0", SECOND_TASK_RANGE, clear_task_field, INACTIVE, T_STATE, 0},
    {"task: state above 4", SECOND_TASK_RANGE, spoil_task, INACTIVE, T_STATE, SLEEPING + 1},
    {"task: suspended, ready", SECOND_TASK_RANGE, spoil_task, READY, T_SUSPENDED, 2},
    {"task: suspended, waiting", SECOND_TASK_RANGE, spoil_task, WAITING, T_SUSPENDED, 2},
    {"task: suspended, sleeping", SECOND_TASK_RANGE, spoil_task, SLEEPING, T_SUSPENDED, 2},
    {"task: priority, inactive", SECOND_TASK_RANGE, spoil_task, INACTIVE, T_PRIORITY,
     PRIORITY_MAX + 1},
    {"task: priority, ready", SECOND_TASK_RANGE, spoil_task, READY, T_PRIORITY, PRIORITY_MAX + 1},
    {"task: priority, waiting", SECOND_TASK_RANGE, spoil_task, WAITING, T_PRIORITY,
     PRIORITY_MAX + 1},
    {"task: priority, sleeping", SECOND_TASK_RANGE, spoil_task, SLEEPING, T_PRIORITY,
     PRIORITY_MAX + 1},

    {"inactive: suspended", SECOND_INACTIVE, suspend_inactive, 0, 0, 0},
    {"inactive: hub", SECOND_INACTIVE, spoil_task, INACTIVE, T_HUB, 1},
    {"inactive: ticks", SECOND_INACTIVE, spoil_task, INACTIVE, T_TICKS, 1},
    {"inactive: side", SECOND_INACTIVE, spoil_task, INACTIVE, T_SIDE, 1},
    {"inactive: word", SECOND_INACTIVE, spoil_task, INACTIVE, T_WORD, 1},
    {"inactive: answer", SECOND_INACTIVE, spoil_task, INACTIVE, T_ANSWER, 1},

    {"ready: hub", SECOND_READY, spoil_task, READY, T_HUB, 1},
    {"ready: ticks", SECOND_READY, spoil_task, READY, T_TICKS, 1},
    {"ready: side", SECOND_READY, spoil_task, READY, T_SIDE, 1},
    {"ready: answer above 3", SECOND_READY, spoil_task, READY, T_ANSWER, TO + 1},
    {"ready: word with answer 0", SECOND_READY, word_without_ok, NO_ANSWER, 0, 0},
    {"ready: word with answer 2", SECOND_READY, word_without_ok, FAIL, 0, 0},
    {"ready: word with answer 3", SECOND_READY, word_without_ok, TO, 0, 0},

    {"waiting: no hub", SECOND_WAITING, waits_nowhere, 0, 0, 0},
    {"waiting: hub not in use", SECOND_WAITING, waits_nowhere, 1, 0, 0},
    {"waiting: ticks", SECOND_WAITING, spoil_task, WAITING, T_TICKS, TICKS_MAX + 1},
    {"waiting: side 0", SECOND_WAITING, clear_task_field, WAITING, T_SIDE, 0},
    {"waiting: side above 2", SECOND_WAITING, spoil_task, WAITING, T_SIDE, GET + 1},
    {"waiting: answer", SECOND_WAITING, spoil_task, WAITING, T_ANSWER, 1},
    {"waiting: word, Event put", SECOND_WAITING, waits_with_word, EVENT, PUT, 0},
    {"waiting: word, Event get", SECOND_WAITING, waits_with_word, EVENT, GET, 0},
    {"waiting: word, Semaphore put", SECOND_WAITING, waits_with_word, SEMAPHORE, PUT, 0},
    {"waiting: word, Semaphore get", SECOND_WAITING, waits_with_word, SEMAPHORE, GET, 0},
    {"waiting: word, Port get", SECOND_WAITING, waits_with_word, PORT, GET, 0},
    {"waiting: word, FIFO get", SECOND_WAITING, waits_with_word, FIFO, GET, 0},
    {"waiting: word, Resource get", SECOND_WAITING, waits_with_word, RESOURCE, GET, 0},
    {"waiting: word, Board read", SECOND_WAITING, waits_with_word, BOARD, GET, 0},
    {"waiting: word, Memory get", SECOND_WAITING, waits_with_word, MEMORY, GET, 0},
    {"waiting: side 3 at a Board", SECOND_WAITING, wiper_waits, 0, 0, 0},

    {"sleeping: hub", SECOND_SLEEPING, spoil_task, SLEEPING, T_HUB, 1},
    {"sleeping: ticks 0", SECOND_SLEEPING, clear_task_field, SLEEPING, T_TICKS, 0},
    {"sleeping: ticks", SECOND_SLEEPING, spoil_task, SLEEPING, T_TICKS, TICKS_MAX + 1},
    {"sleeping: side", SECOND_SLEEPING, spoil_task, SLEEPING, T_SIDE, 1},
    {"sleeping: word", SECOND_SLEEPING, spoil_task, SLEEPING, T_WORD, 1},
    {"sleeping: answer", SECOND_SLEEPING, spoil_task, SLEEPING, T_ANSWER, 1},

    {"hub: one more than there are", SECOND_KIND, one_more, HUBS_IN_USE_AT, 0, 0},
    {"hub: kind 0", SECOND_KIND, clear_hub_field, PORT, H_KIND, 0},
    {"hub: kind above 7", SECOND_KIND, spoil_hub, PORT, H_KIND, MEMORY + 1},
    {"Event: limit 0", SECOND_KIND, clear_hub_field, EVENT, H_LIMIT, 0},
    {"Event: limit above 1", SECOND_KIND, spoil_hub, EVENT, H_LIMIT, 2},
    {"Event: start", SECOND_KIND, spoil_hub, EVENT, H_START, 1},
    {"Event: count", SECOND_COUNT, above_limit, EVENT, H_COUNT, 0},
    {"Semaphore: limit 0", SECOND_KIND, clear_hub_field, SEMAPHORE, H_LIMIT, 0},
    {"Semaphore: limit above 65535", SECOND_KIND, spoil_hub, SEMAPHORE, H_LIMIT,
     SEMAPHORE_MAX + 1},
    {"Semaphore: start", SECOND_KIND, above_limit, SEMAPHORE, H_START, 0},
    {"Semaphore: count", SECOND_COUNT, above_limit, SEMAPHORE, H_COUNT, 0},
    {"Port: limit", SECOND_KIND, spoil_hub, PORT, H_LIMIT, 1},
    {"Port: start", SECOND_KIND, spoil_hub, PORT, H_START, 1},
    {"Port: count", SECOND_COUNT, above_limit, PORT, H_COUNT, 0},
    {"FIFO: limit 0", SECOND_KIND, clear_hub_field, FIFO, H_LIMIT, 0},
    {"FIFO: limit above 8", SECOND_KIND, spoil_hub, FIFO, H_LIMIT, FIFO_MAX + 1},
    {"FIFO: start", SECOND_KIND, spoil_hub, FIFO, H_START, 1},
    {"FIFO: count", SECOND_COUNT, above_limit, FIFO, H_COUNT, 0},
    {"FIFO: a word above the limit", SECOND_COUNT, overfull_fifo, 0, 0, 0},
    {"Resource: limit 0", SECOND_KIND, clear_hub_field, RESOURCE, H_LIMIT, 0},
    {"Resource: limit above 1", SECOND_KIND, spoil_hub, RESOURCE, H_LIMIT, 2},
    {"Resource: start", SECOND_KIND, spoil_hub, RESOURCE, H_START, 1},
    {"Resource: owner not in use", SECOND_COUNT, owner_not_in_use, 0, 0, 0},
    {"Resource: owner inactive, nobody waits", SECOND_OWNER, owner_inactive, 0, 0, 0},
    {"Resource: owner inactive, somebody waits", SECOND_OWNER, owner_inactive, 1, 0, 0},
    {"Resource: owner stopped, locks kept", SECOND_OWNER, owner_stopped, 0, 0, 0},
    {"Board: limit 0", SECOND_KIND, clear_hub_field, BOARD, H_LIMIT, 0},
    {"Board: limit above 1", SECOND_KIND, spoil_hub, BOARD, H_LIMIT, 2},
    {"Board: start", SECOND_KIND, spoil_hub, BOARD, H_START, 1},
    {"Board: count", SECOND_COUNT, above_limit, BOARD, H_COUNT, 0},
    {"Board: count 2, two words", SECOND_COUNT, two_words_on_board, 0, 0, 0},
    {"Memory: limit 0", SECOND_KIND, spoil_blocks, 0, 0, 0},
    {"Memory: limit above 8", SECOND_KIND, spoil_blocks, 0, 0, BLOCKS_MAX + 1},
    {"Memory: start below the limit", SECOND_KIND, memory_start, 0, 0, 0},
    {"Memory: start above the limit", SECOND_KIND, above_limit, MEMORY, H_START, 0},
    {"Memory: count above the limit", SECOND_COUNT, above_limit, MEMORY, H_COUNT, 0},
    {"Memory: count below the free blocks", SECOND_BLOCKS, wrong_free, 0, 0, 0},
    {"Memory: count above the free blocks", SECOND_BLOCKS, wrong_free, 0, 1, 0},
    {"Memory: a mark missing", SECOND_BLOCKS, wrong_mark, 0, 0, 0},
    {"Memory: a mark too many", SECOND_BLOCKS, wrong_mark, 0, 1, 0},
    {"Memory: a mark missing, getters wait", SECOND_BLOCKS, unmarked_while_awaited, 0, 0, 0},

    {"ready list: gap", SECOND_READY_LIST, gap_in_list, READY, 0, 0},
    {"ready list: task twice", SECOND_READY_LIST, twice_in_list, READY, 0, 0},
    {"ready list: twice for another", SECOND_READY_LIST, twice_for_another, READY, 0, 0},
    {"ready list: missing", SECOND_READY_LIST, missing_in_list, READY, 0, 0},
    {"ready list: inactive task", SECOND_READY_LIST, stranger_in_list, READY, INACTIVE, 0},
    {"ready list: waiting task", SECOND_READY_LIST, stranger_in_list, READY, WAITING, 0},
    {"ready list: sleeping task", SECOND_READY_LIST, stranger_in_list, READY, SLEEPING, 0},
    {"ready list: no task behind", SECOND_READY_LIST, no_task_in_list, READY, 0, 0},
    {"ready list: no task for another", SECOND_READY_LIST, no_task_for_another, READY, 0, 0},
    {"ready list: order", SECOND_ORDER, wrong_order, READY, 0, 0},
    {"waiting list: gap", SECOND_WAITING_LIST, gap_in_list, WAITING, 0, 0},
    {"waiting list: task twice", SECOND_WAITING_LIST, twice_in_list, WAITING, 0, 0},
    {"waiting list: twice for another", SECOND_WAITING_LIST, twice_for_another, WAITING, 0, 0},
    {"waiting list: missing", SECOND_WAITING_LIST, missing_in_list, WAITING, 0, 0},
    {"waiting list: inactive task", SECOND_WAITING_LIST, stranger_in_list, WAITING, INACTIVE, 0},
    {"waiting list: ready task", SECOND_WAITING_LIST, stranger_in_list, WAITING, READY, 0},
    {"waiting list: sleeping task", SECOND_WAITING_LIST, stranger_in_list, WAITING, SLEEPING, 0},
    {"waiting list: another hub's", SECOND_WAITING_LIST, in_another_list, 0, 0, 0},
    {"waiting list: no task behind", SECOND_WAITING_LIST, no_task_in_list, WAITING, 0, 0},
    {"waiting list: no task for another", SECOND_WAITING_LIST, no_task_for_another, WAITING, 0, 0},
    {"waiting list: order", SECOND_ORDER, wrong_order, WAITING, 0, 0},
    {"ready list: by own priority", SECOND_ORDER, wrong_ranks, READY, 0, 0},
    {"waiting list: by own priority", SECOND_ORDER, wrong_ranks, WAITING, 0, 0},
    {"all lists: by own priority", SECOND_ORDER, wrong_ranks, ANY, 0, 0},
    {"ready list: by direct waiters", SECOND_ORDER, wrong_ranks, READY, 1, 0},
    {"waiting list: by direct waiters", SECOND_ORDER, wrong_ranks, WAITING, 1, 0},
    {"ready list: by 8 tasks deep", SECOND_ORDER, wrong_ranks, READY, 7, 0},
    {"waiting list: by 8 tasks deep", SECOND_ORDER, wrong_ranks, WAITING, 7, 0},
    {"ready list: order, inherited", SECOND_ORDER, wrong_inherited, READY, 0, 0},
    {"ready list: order by one, inherited", SECOND_ORDER, wrong_inherited, READY, 1, 0},
    {"waiting list: order, inherited", SECOND_ORDER, wrong_inherited, WAITING, 0, 0},
    {"waiting list: order by one, inherited", SECOND_ORDER, wrong_inherited, WAITING, 1, 0},
    {"waiting list: order in a ring", SECOND_ORDER, wrong_inherited, WAITING, 2, 0},
    {"ready list: order, the 16th", SECOND_ORDER, wrong_at_end, READY, 0, 0},
    {"waiting list: order, the 16th", SECOND_ORDER, wrong_at_end, WAITING, 0, 0},
    {"waiting lists: everybody in each", SECOND_WAITING_LIST, crowded_lists, 0, 0, 0},
    {"waiting lists: all but the owner in each", SECOND_WAITING_LIST, crowded_lists, 0, 1, 0},
    {"waiting lists: one 16 times in each", SECOND_WAITING_LIST, crowded_lists, 0, 2, 0},

    {"two sides: Event", SECOND_ONE_SIDE, two_sides, EVENT, 0, 0},
    {"two sides: Semaphore", SECOND_ONE_SIDE, two_sides, SEMAPHORE, 0, 0},
    {"two sides: Port", SECOND_ONE_SIDE, two_sides, PORT, 0, 0},
    {"two sides: FIFO", SECOND_ONE_SIDE, two_sides, FIFO, 0, 0},
    {"two sides: Resource", SECOND_ONE_SIDE, two_sides, RESOURCE, 0, 0},
    {"two sides: Board", SECOND_ONE_SIDE, two_sides, BOARD, 0, 0},
    {"two sides: Memory", SECOND_ONE_SIDE, two_sides, MEMORY, 0, 0},
    {"getters: Event at 1", SECOND_GETTERS, getters_at_something, EVENT, 0, 0},
    {"getters: Semaphore above 0", SECOND_GETTERS, getters_at_something, SEMAPHORE, 0, 0},
    {"getters: FIFO with words", SECOND_GETTERS, getters_at_something, FIFO, 0, 0},
    {"getters: free Resource", SECOND_GETTERS, getters_at_free, 0, 0, 0},
    {"getters: Resource's owner", SECOND_GETTERS, owner_waits, 0, 0, 0},
    {"getters: written Board", SECOND_GETTERS, getters_at_something, BOARD, 0, 0},
    {"getters: Memory with a free block", SECOND_GETTERS, getters_at_blocks, 0, 0, 0},
    {"getters: Memory above 0, all marked", SECOND_GETTERS, getters_at_blocks, 0, 1, 0},
    {"putters: Event at 0", SECOND_PUTTERS, putters_below_limit, EVENT, 0, 0},
    {"putters: Semaphore below limit", SECOND_PUTTERS, putters_below_limit, SEMAPHORE, 0, 0},
    {"putters: FIFO below limit", SECOND_PUTTERS, putters_below_limit, FIFO, 0, 0},
    {"putters: Resource", SECOND_PUTTERS, putters_for_getters, RESOURCE, 0, 0},
    {"putters: Board without a word", SECOND_PUTTERS, putters_for_getters, BOARD, 0, 0},
    {"putters: written Board", SECOND_PUTTERS, putters_for_getters, BOARD, 1, 0},
    {"putters: Memory without a free block", SECOND_PUTTERS, putters_at_blocks, 0, 0, 0},
    {"putters: Memory, every block free", SECOND_PUTTERS, putters_at_blocks, 0, 1, 0},

    {"store: Event", SECOND_STORE, word_in_store, EVENT, 0, 0},
    {"store: Semaphore", SECOND_STORE, word_in_store, SEMAPHORE, 0, 0},
    {"store: Port", SECOND_STORE, word_in_store, PORT, 0, 0},
    {"store: FIFO behind its words", SECOND_STORE, word_in_store, FIFO, 0, 0},
    {"store: Resource", SECOND_STORE, word_in_store, RESOURCE, 0, 0},
    {"store: Board without a word", SECOND_STORE, word_on_board, 0, 0, 0},
    {"store: Board, a second word", SECOND_STORE, word_on_board, 0, 1, 0},
    {"store: Memory, a mark above 1, a free block's", SECOND_STORE, mark_above_1, 0, 0, 0},
    {"store: Memory, a mark above 1, a block's that is out", SECOND_STORE, mark_above_1, 0, 1, 0},
    {"store: Memory, a mark of 2 for two blocks", SECOND_STORE, mark_for_two, 0, 0, 0},
    {"store: Memory, a mark at the limit", SECOND_STORE, mark_past_limit, 0, 0, 0},
    {"store: Memory, a mark past the limit", SECOND_STORE, mark_past_limit, 0, 1, 0},
    {"store: Memory, a mark past the limit for a block's", SECOND_STORE, mark_past_limit, 0, 2, 0},

    {"contents: the other edition", SECOND_CONTENTS, others_contents, OTHER_EDITION, 0, 0},
    {"contents: the other edition's starts", SECOND_CONTENTS, others_contents, OTHER_STARTS, 0, 0},
    {"contents: a start of the other edition", SECOND_CONTENTS, others_contents, OTHER_START, 0, 0},
    {"contents: the other edition and its starts", SECOND_CONTENTS, others_contents,
     OTHER_EDITION + OTHER_STARTS, 0, 0},
    {"contents: a table of the other edition", SECOND_CONTENTS, others_table, 0, 0, 0},
    {"contents: the other edition, no hub", SECOND_CONTENTS, others_empty, OTHER_EDITION, 0, 0},
    {"contents: the other edition and its starts, no hub", SECOND_CONTENTS, others_empty,
     OTHER_EDITION + OTHER_STARTS, 0, 0},
};

/* Edition 2 only: a high word where the message is 0. */
static const damage high_damages[] = {
    {"unused: task record, high word", SECOND_UNUSED, spoil_unused, TASK_BODY, 1, 0},
    {"unused: store, high word", SECOND_UNUSED, spoil_unused, STORE_BODY, 1, 0},
    {"inactive: high word", SECOND_INACTIVE, spoil_task, INACTIVE, T_HIGH, 1},
    {"ready: high word with answer 0", SECOND_READY, word_without_ok, NO_ANSWER, 1, 0},
    {"ready: high word with answer 2", SECOND_READY, word_without_ok, FAIL, 1, 0},
    {"ready: high word with answer 3", SECOND_READY, word_without_ok, TO, 1, 0},
    {"waiting: high word, Event put", SECOND_WAITING, waits_with_word, EVENT, PUT, 1},
    {"waiting: high word, Event get", SECOND_WAITING, waits_with_word, EVENT, GET, 1},
    {"waiting: high word, Semaphore put", SECOND_WAITING, waits_with_word, SEMAPHORE, PUT, 1},
    {"waiting: high word, Semaphore get", SECOND_WAITING, waits_with_word, SEMAPHORE, GET, 1},
    {"waiting: high word, Port get", SECOND_WAITING, waits_with_word, PORT, GET, 1},
    {"waiting: high word, FIFO get", SECOND_WAITING, waits_with_word, FIFO, GET, 1},
    {"waiting: high word, Resource get", SECOND_WAITING, waits_with_word, RESOURCE, GET, 1},
    {"waiting: high word, Board read", SECOND_WAITING, waits_with_word, BOARD, GET, 1},
    {"waiting: high word, Memory get", SECOND_WAITING, waits_with_word, MEMORY, GET, 1},
    {"sleeping: high word", SECOND_SLEEPING, spoil_task, SLEEPING, T_HIGH, 1},
    {"store: Event, high word", SECOND_STORE, high_in_store, EVENT, 0, 0},
    {"store: Semaphore, high word", SECOND_STORE, high_in_store, SEMAPHORE, 0, 0},
    {"store: Port, high word", SECOND_STORE, high_in_store, PORT, 0, 0},
    {"store: FIFO, high word behind its words", SECOND_STORE, high_in_store, FIFO, 0, 0},
    {"store: Resource, high word", SECOND_STORE, high_in_store, RESOURCE, 0, 0},
    {"store: Board without a word, high word", SECOND_STORE, high_in_store, BOARD, 0, 0},
    {"store: Board, a second high word", SECOND_STORE, high_in_store, BOARD, 1, 0},
    {"store: Memory, high word, a free block's", SECOND_STORE, high_in_mark, 0, 0, 0},
    {"store: Memory, high word, a block's that is out", SECOND_STORE, high_in_mark, 0, 1, 0},
    {"store: Memory, high word past the limit", SECOND_STORE, high_in_mark, 0, 2, 0},
};

enum {
    BOTH = sizeof damages / sizeof *damages,
    HIGH_ONLY = sizeof high_damages / sizeof *high_damages
};

static const damage *family_of(size_t number)
{
    return number < BOTH ? &damages[number] : &high_damages[number - BOTH];
}

size_t gen_damages(uint32_t edition) { return edition == EDITION_1 ? BOTH : BOTH + HIGH_ONLY; }
const char *gen_damage_name(size_t family) { return family_of(family)->name; }
int gen_damage_clause(size_t family) { return family_of(family)->clause; }

void gen_damaged(gen_random *random, uint32_t edition, size_t family, uint32_t *table)
{
    do
        gen_table(random, edition, table);
    while (!family_of(family)->make(random, table, family_of(family)));
}

void gen_flip(gen_random *random, uint32_t *table)
{
    uint32_t words = layout_of(table)->words;

    for (uint32_t flips = from_to(random, 1, 3); flips > 0; flips--) {
        uint32_t *word = table + gen_below(random, words);
        switch (gen_below(random, 4)) {
        case 0:
            *word = gen_below(random, 17);
            break;
        case 1:
            *word += ONE_OF(random, 1, UINT32_MAX);
            break;
        case 2:
            *word = table[gen_below(random, words)];
            break;
        default:
            *word = any_word(random);
            break;
        }
    }
}

/* ---- Drill lines ------------------------------------------------------- */

static size_t insert_byte(uint8_t *line, size_t length, size_t at, uint8_t byte)
{
    memmove(line + at + 1, line + at, length - at);
    line[at] = byte;
    return length + 1;
}

/* Where a number of the line starts, the first or a later one. */
static size_t number_start(gen_random *random, const uint8_t *line, size_t length)
{
    size_t at = gen_below(random, (uint32_t)length);
    while (at > 0 && line[at - 1] != ' ')
        at--;
    return at;
}

/* So many numbers 0 more. */
static size_t zeros_behind(uint8_t *line, size_t length, int count)
{
    for (; count > 0; count--) {
        line[length++] = ' ';
        line[length++] = '0';
    }
    return length;
}

/* Each case makes a good line bad for one cause. */
static size_t damage_line(gen_random *random, uint8_t *line, size_t length)
{
    size_t at = number_start(random, line, length);
    size_t anywhere = gen_below(random, (uint32_t)length + 1);

    switch (gen_below(random, 12)) {
    case 0: /* leading zero, "00" among them */
        return insert_byte(line, length, at, '0');
    case 1: /* leading or double space */
        return insert_byte(line, length, at, ' ');
    case 2:
        return insert_byte(line, length, length, ' ');
    case 3: /* carriage return, tab, NUL, sign, letter, beyond ASCII, any but space or digit */
        return insert_byte(line, length, anywhere,
                           (uint8_t)ONE_OF(random, '\r', '\t', 0, '-', '+', 'x', '.', '/', ':', 11,
                                           0x85, 0xFF));
    case 4:
        return insert_byte(line, length, length, '\r');
    case 5: /* the space between is another byte */
        if (at > 0)
            line[at - 1] = (uint8_t)ONE_OF(random, '\t', ',', 0, 0xA0);
        else
            line[at] = '-';
        return length;
    case 6: /* a number less */
        while (line[--length] != ' ')
            ;
        return length;
    case 7: /* one more */
        line[length] = ' ';
        return insert_byte(line, length + 1, length + 1, '7');
    case 8: /* too large by one, or by a digit */
        length = (size_t)snprintf((char *)line, GEN_LINE_MAX, "0 0 %s",
                                  gen_chance(random, 50) ? "4294967296" : "10000000000");
        return zeros_behind(line, length, LINE_NUMBERS - 3);
    case 9: /* a byte too many, and more */
        length = from_to(random, LINE_MAX_BYTES + 1,
                         gen_chance(random, 80) ? LINE_MAX_BYTES + 10 : GEN_LINE_MAX);
        memset(line, (int)ONE_OF(random, '0', '1', ' ', 'x'), length);
        return length;
    case 10:
        return 0;
    default:
        if (!gen_chance(random, 50)) {
            line[0] = 'x';
            return 1;
        }
        line[0] = '0';
        length = zeros_behind(line, 1, LINE_NUMBERS - 2);
        return insert_byte(line, length, length, ' ');
    }
}

size_t gen_drill_line(gen_random *random, const gen_mood *mood, const uint32_t *table,
                      uint8_t line[GEN_LINE_MAX], uint32_t call[8], int *good)
{
    size_t length = 0;

    gen_call(random, mood, table, call);
    for (int i = 0; i < LINE_NUMBERS; i++)
        length += (size_t)snprintf((char *)line + length, GEN_LINE_MAX - length, "%s%lu",
                                   i > 0 ? " " : "", (unsigned long)call[i]);
    *good = !gen_chance(random, 10);
    return *good ? length : damage_line(random, line, length);
}
