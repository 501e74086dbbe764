/* A small panel: a fan reversal by checklist, with two tasks and four hubs. It
 * prints of each step which of met, failed and timed out it was: a step that
 * came back is not a step that was met. Orders to the drive are messages of 64 bits,
 * on a table of edition 2. Then crews that all want the fan: whoever has to wait is
 * told how many are ahead. Then cleaners who have the fan, and run before others while a
 * more urgent crew waits for it. Then an old table, of edition 1, that is moved up while
 * requests wait in it, and later back down. Then two buffers that go from task to task by
 * their numbers. Last what single steps changed in the table,
 * and a copy of it that is kept up to date by that alone.
 *
 * The host owns the table and acts for the task that `next` names. When no task
 * can run it lets a tick pass. A task that waited finds what became of its
 * request in its own answer word, never in the reply of the call that woke it. */
#include <inttypes.h>
#include <stdio.h>
#include <stdlib.h>
#include <string.h>

#include "hub_kernel.h"

enum { CHECKLIST, DRIVE, TASKS };        /* the tasks, in the order they are added */
enum { FAN, ORDERS, STOPPED, REVERSED }; /* the hubs likewise */
enum { STOP = 1, REVERSE = 2, RUN = 3 }; /* what an order to the drive says */
enum { FULL_SPEED = 1480 };              /* turns a minute */
enum { TIMEOUT = 4 };                    /* ticks that the checklist waits for the drive */
enum { WORK = 3 };                       /* ticks that a crew needs the fan */

typedef struct {
    const char *what; /* NULL ends the steps */
    uint32_t service, target, side, mode, ticks, word, high;
} step;

/* An order is 64 bits: turns a minute in the low word, what to do in the high one. */
#define ORDER(what, turns) \
    HUB_KERNEL_HUB_REQUEST, ORDERS, HUB_KERNEL_PUT, HUB_KERNEL_NW, 0, turns, what
#define PUT(hub, mode) HUB_KERNEL_HUB_REQUEST, hub, HUB_KERNEL_PUT, mode, 0, 0, 0
#define GET(hub, mode) HUB_KERNEL_HUB_REQUEST, hub, HUB_KERNEL_GET, mode, 0, 0, 0
#define GET_WITHIN(hub, ticks) \
    HUB_KERNEL_HUB_REQUEST, hub, HUB_KERNEL_GET, HUB_KERNEL_WT, ticks, 0, 0
#define SLEEP(ticks) HUB_KERNEL_SLEEP, 0, 0, 0, ticks, 0, 0

static const step checklist[] = {
    {"take the fan", GET(FAN, HUB_KERNEL_W)},
    {"order: stop", ORDER(STOP, 0)},
    {"the fan stands", GET_WITHIN(STOPPED, TIMEOUT)},
    {"order: reverse", ORDER(REVERSE, 0)},
    {"order: full speed", ORDER(RUN, FULL_SPEED)},
    {"the fan runs in reverse", GET_WITHIN(REVERSED, TIMEOUT)},
    {"give the fan back", PUT(FAN, HUB_KERNEL_W)},
    {.what = NULL},
};

static const step prompt_drive[] = {
    {"read an order", GET(ORDERS, HUB_KERNEL_W)},
    {"slow down", SLEEP(3)},
    {"say that it stands", PUT(STOPPED, HUB_KERNEL_W)},
    {"read an order", GET(ORDERS, HUB_KERNEL_W)},
    {"read an order", GET(ORDERS, HUB_KERNEL_W)},
    {"speed up", SLEEP(2)},
    {"say that it runs in reverse", PUT(REVERSED, HUB_KERNEL_W)},
    {.what = NULL},
};

static const step stuck_drive[] = {
    {"read an order", GET(ORDERS, HUB_KERNEL_W)},
    {"slow down", SLEEP(3)},
    {"say that it stands", PUT(STOPPED, HUB_KERNEL_W)},
    {"cool down", SLEEP(100)},
    {.what = NULL},
};

typedef struct {
    uint8_t table[HUB_KERNEL_TABLE_BYTES_2]; /* room for either edition */
    size_t bytes;                            /* of the table: its edition */
    uint32_t next;                           /* of the last accepted call */
    uint32_t ticks;
} panel;

/* ---- The kernel -------------------------------------------------------- */

static hub_kernel_reply try_to(panel *of, uint32_t caller, step call)
{
    hub_kernel_reply reply = hub_kernel_call(of->table, of->bytes, call.service, caller,
                                             call.target, call.side, call.mode, call.ticks,
                                             call.word, call.high);
    if (reply.refusal == HUB_KERNEL_ACCEPTED)
        of->next = reply.next;
    return reply;
}

/* What this host asks for is never refused: if it is, the host is wrong. */
static hub_kernel_reply ask(panel *of, uint32_t caller, step call)
{
    hub_kernel_reply reply = try_to(of, caller, call);

    if (reply.refusal != HUB_KERNEL_ACCEPTED) {
        printf("service %" PRIu32 ": refusal %" PRIu32 "\n", call.service, reply.refusal);
        exit(1);
    }
    return reply;
}

/* An empty table, of the edition that has so many bytes. */
static void begin(panel *it, size_t bytes)
{
    it->bytes = bytes;
    it->ticks = 0;
    ask(it, 0, (step){.service = HUB_KERNEL_BLANK});
}

static void pass_tick(panel *of)
{
    ask(of, 0, (step){.service = HUB_KERNEL_TICK});
    of->ticks++;
}

static uint32_t word_at(const panel *of, size_t place)
{
    const uint8_t *byte = of->table + place;
    return byte[0] | (uint32_t)byte[1] << 8 | (uint32_t)byte[2] << 16 | (uint32_t)byte[3] << 24;
}

static void put_word(panel *to, size_t place, uint32_t word)
{
    for (size_t i = 0; i < 4; i++)
        to->table[place + i] = (uint8_t)(word >> 8 * i);
}

static int is_edition_2(const panel *it) { return it->bytes == HUB_KERNEL_TABLE_BYTES_2; }

/* A word of a task's record: at one place in edition 1, at another in edition 2. */
static uint32_t task_word(const panel *of, uint32_t task, size_t place_1, size_t place_2)
{
    return is_edition_2(of)
               ? word_at(of, HUB_KERNEL_TASKS_AT + HUB_KERNEL_TASK_BYTES_2 * task + place_2)
               : word_at(of, HUB_KERNEL_TASKS_AT + HUB_KERNEL_TASK_BYTES * task + place_1);
}

static uint32_t answer_of(const panel *of, uint32_t task)
{
    return task_word(of, task, HUB_KERNEL_TASK_ANSWER, HUB_KERNEL_TASK_ANSWER_2);
}

static uint32_t low_word_of(const panel *of, uint32_t task)
{
    return task_word(of, task, HUB_KERNEL_TASK_WORD, HUB_KERNEL_TASK_WORD);
}

/* Edition 1 has no such word. */
static uint32_t high_word_of(const panel *of, uint32_t task)
{
    return is_edition_2(of) ? task_word(of, task, 0, HUB_KERNEL_TASK_HIGH_2) : 0;
}

static uint32_t waiters_at(const panel *of, uint32_t hub)
{
    return hub_kernel_summary(of->table, of->bytes, hub).count;
}

static void add_task(panel *to, uint32_t priority)
{
    ask(to, 0, (step){.service = HUB_KERNEL_ADD_TASK, .target = priority, .side = 1});
}

/* Every hub begins empty, but a Memory, which begins with all its blocks. */
static void add_hub(panel *to, uint32_t kind, uint32_t limit)
{
    ask(to, 0, (step){.service = HUB_KERNEL_ADD_HUB,
                      .target = kind,
                      .ticks = limit,
                      .word = kind == HUB_KERNEL_MEMORY ? limit : 0});
}

static void set_up(panel *it)
{
    begin(it, HUB_KERNEL_TABLE_BYTES_2);
    add_task(it, 20); /* CHECKLIST */
    add_task(it, 10); /* DRIVE, more urgent */
    add_hub(it, HUB_KERNEL_RESOURCE, 1); /* FAN */
    add_hub(it, HUB_KERNEL_FIFO, 1);     /* ORDERS: room for one */
    add_hub(it, HUB_KERNEL_EVENT, 1);    /* STOPPED */
    add_hub(it, HUB_KERNEL_EVENT, 1);    /* REVERSED */
}

/* ---- The checklist ----------------------------------------------------- */

static const char *class_of(uint32_t answer)
{
    switch (answer) {
    case HUB_KERNEL_OK:
        return "met";
    case HUB_KERNEL_FAIL:
        return "failed";
    case HUB_KERNEL_TO:
        return "timed out";
    default:
        return "not answered";
    }
}

/* The order that the task received; both of its words stand in the task's record. */
static void print_order(const panel *of, uint32_t task)
{
    switch (high_word_of(of, task)) {
    case STOP:
        printf("stop\n");
        break;
    case REVERSE:
        printf("reverse\n");
        break;
    case RUN:
        printf("run at %" PRIu32 " turns a minute\n", low_word_of(of, task));
        break;
    default:
        printf("an order that the drive doesn't know\n");
    }
}

/* The request has to wait: the reply says how many stand before it at that hub. */
static void print_wait(int number, const step *asked, hub_kernel_reply reply)
{
    printf("step %d  %-24s waits, %" PRIu32 " ahead of you\n", number, asked->what, reply.ahead);
}

static void print_step(const panel *of, int number, const step *done, uint32_t answer,
                       uint32_t ticks)
{
    printf("step %d  %-24s %s", number, done->what, class_of(answer));
    if (ticks > 0)
        printf(" after %" PRIu32 " ticks", ticks);
    if (answer == HUB_KERNEL_TO)
        printf(", and %" PRIu32 " wait there now", waiters_at(of, done->target));
    printf("\n");
}

/* Each task does its steps in order: one call when it is the running task, and
 * the next once the answer of the one before is there. A task with no step left
 * sleeps. Ends with the checklist. */
static void walk(const char *name, const step *drive)
{
    const step *at[TASKS] = {checklist, drive};
    uint32_t since[TASKS] = {0}, classes[4] = {0};
    int open[TASKS] = {0}; /* the step at hand has been asked for */
    panel it;

    printf("fan reversal, %s\n", name);
    set_up(&it);
    while (at[CHECKLIST]->what != NULL) {
        uint32_t task = it.next - 1, answer = HUB_KERNEL_NOTHING_YET;

        if (it.next == 0) {
            pass_tick(&it);
            continue;
        }
        if (open[task]) {
            answer = answer_of(&it, task);
        } else if (at[task]->what == NULL) {
            ask(&it, task, (step){"", SLEEP(HUB_KERNEL_TICKS_MAX)});
        } else {
            since[task] = it.ticks;
            open[task] = 1;
            hub_kernel_reply reply = ask(&it, task, *at[task]);
            answer = reply.answer;
            if (task == CHECKLIST && answer == HUB_KERNEL_NOTHING_YET)
                print_wait((int)(at[task] - checklist) + 1, at[task], reply);
        }
        if (answer == HUB_KERNEL_NOTHING_YET)
            continue;
        if (task == CHECKLIST) {
            classes[answer]++;
            print_step(&it, (int)(at[task] - checklist) + 1, at[task], answer,
                       it.ticks - since[task]);
        } else if (at[task]->service == HUB_KERNEL_HUB_REQUEST && at[task]->target == ORDERS) {
            printf("        the drive is told: ");
            print_order(&it, task);
        }
        open[task] = 0;
        at[task]++;
    }
    printf("%d steps came back: %" PRIu32 " met, %" PRIu32 " failed, %" PRIu32 " timed out\n",
           (int)(at[CHECKLIST] - checklist), classes[HUB_KERNEL_OK], classes[HUB_KERNEL_FAIL],
           classes[HUB_KERNEL_TO]);
    printf("the reversal is %s\n",
           classes[HUB_KERNEL_FAIL] + classes[HUB_KERNEL_TO] == 0 ? "done" : "NOT done");
}

/* ---- The queue --------------------------------------------------------- */

static const struct {
    const char *name;
    uint32_t priority;
} crews[] = {
    {"maintenance", 30}, {"day crew", 20}, {"night crew", 20}, {"fire crew", 5}, {"cleaners", 40},
};
enum { CREWS = sizeof crews / sizeof *crews };

typedef enum { WAITS, WORKS, GONE } stage;

/* The crew is added and asks at once: the others wait or work, so it is the one that
 * runs. */
static stage come(panel *to, uint32_t crew)
{
    add_task(to, crews[crew].priority);
    hub_kernel_reply reply = ask(to, crew, (step){"", GET(FAN, HUB_KERNEL_W)});

    printf("%-12s asks for the fan: ", crews[crew].name);
    if (reply.answer == HUB_KERNEL_NOTHING_YET) {
        printf("waits, %" PRIu32 " ahead of you\n", reply.ahead);
        return WAITS;
    }
    printf("%s\n", class_of(reply.answer));
    ask(to, crew, (step){"", SLEEP(WORK)});
    return WORKS;
}

/* What the crew that runs does next: it has got the fan, and works; it has worked, and
 * gives the fan back; or it has nothing left to do. */
static stage go_on(panel *at, uint32_t crew, stage was)
{
    switch (was) {
    case WAITS:
        printf("%-12s %s after %" PRIu32 " ticks\n", crews[crew].name,
               class_of(answer_of(at, crew)), at->ticks);
        ask(at, crew, (step){"", SLEEP(WORK)});
        return WORKS;
    case WORKS:
        ask(at, crew, (step){"", PUT(FAN, HUB_KERNEL_W)});
        return GONE;
    default:
        ask(at, crew, (step){"", SLEEP(HUB_KERNEL_TICKS_MAX)});
        return GONE;
    }
}

/* They come one after the other. Ends when all are gone. */
static void queue_for_the_fan(void)
{
    stage now[CREWS];
    uint32_t gone = 0;
    panel it;

    printf("%d crews want the fan\n", (int)CREWS);
    begin(&it, HUB_KERNEL_TABLE_BYTES_2);
    add_hub(&it, HUB_KERNEL_RESOURCE, 1); /* FAN */
    for (uint32_t crew = 0; crew < CREWS; crew++)
        now[crew] = come(&it, crew);
    while (gone < CREWS) {
        uint32_t crew = it.next - 1;

        if (it.next == 0) {
            pass_tick(&it);
            continue;
        }
        gone += now[crew] == WORKS;
        now[crew] = go_on(&it, crew, now[crew]);
    }
}

/* ---- The lock ---------------------------------------------------------- */

static const char *const holders[] = {"cleaners", "day crew", "fire crew"};
enum { CLEANERS, DAY, FIRE_CREW };

static void print_next(const panel *of, const char *what)
{
    printf("%-48s runs now: %s\n", what, of->next == 0 ? "nobody" : holders[of->next - 1]);
}

/* The cleaners have the fan, and are the least urgent; the day crew, more urgent, doesn't want
 * it. While the fire crew waits for it, the cleaners run before the day crew: the kernel lends
 * them the fire crew's priority until they give the fan back. */
static void lend_priority(void)
{
    panel it;

    printf("the cleaners have the fan\n");
    begin(&it, HUB_KERNEL_TABLE_BYTES_2);
    add_hub(&it, HUB_KERNEL_RESOURCE, 1); /* FAN */
    add_task(&it, 40);                    /* CLEANERS */
    ask(&it, CLEANERS, (step){"", GET(FAN, HUB_KERNEL_W)});
    add_task(&it, 20); /* DAY */
    print_next(&it, "the day crew comes, and doesn't want the fan");
    add_task(&it, 5); /* FIRE_CREW */
    print_next(&it, "the fire crew comes");
    ask(&it, FIRE_CREW, (step){"", GET(FAN, HUB_KERNEL_W)});
    print_next(&it, "the fire crew waits for the fan");
    ask(&it, CLEANERS, (step){"", PUT(FAN, HUB_KERNEL_W)});
    print_next(&it, "the cleaners give it back");
    printf("%-48s its wait for the fan: %s\n", "", class_of(answer_of(&it, FIRE_CREW)));
    ask(&it, FIRE_CREW, (step){"", SLEEP(WORK)});
    print_next(&it, "the fire crew works");
}

/* ---- The old table ----------------------------------------------------- */

/* Who is at the old panel, in the order they are added. Whoever is added runs at once,
 * since all before it wait; control comes last and is the least urgent. */
static const struct {
    const char *name;
    uint32_t priority;
    step asks;
} staff[] = {
    {"drive", 10, {"an order", GET(ORDERS, HUB_KERNEL_W)}},
    {"day crew", 20, {"the fan", GET_WITHIN(FAN, 4)}},
    {"night crew", 20, {"the fan", GET(FAN, HUB_KERNEL_W)}},
    {"inspector", 15, {"the standstill", GET_WITHIN(STOPPED, 2)}},
    {"control", 30, {.what = NULL}},
};
enum { OLD_DRIVE, DAY_CREW, NIGHT_CREW, INSPECTOR, CONTROL, STAFF };

/* The drive has the fan, and waits for an order; the others wait, too. */
static void come_all(panel *to)
{
    for (uint32_t who = 0; who < STAFF; who++) {
        add_task(to, staff[who].priority);
        if (who == OLD_DRIVE)
            ask(to, who, (step){"", GET(FAN, HUB_KERNEL_W)});
        if (staff[who].asks.what == NULL)
            continue;
        hub_kernel_reply reply = ask(to, who, staff[who].asks);
        printf("%-12s waits for %s, %" PRIu32 " ahead", staff[who].name, staff[who].asks.what,
               reply.ahead);
        if (staff[who].asks.ticks > 0)
            printf(", at most %" PRIu32 " ticks", staff[who].asks.ticks);
        printf("\n");
    }
}

static uint32_t all_waiters(const panel *of)
{
    return waiters_at(of, FAN) + waiters_at(of, ORDERS) + waiters_at(of, STOPPED);
}

/* To the other edition. The kernel writes a table of its own; the host goes on in that one
 * where the move is done, and in the old one where it is refused. */
static void move(panel *it)
{
    uint32_t waited = all_waiters(it);
    int up = !is_edition_2(it);
    panel new = {.bytes = up ? HUB_KERNEL_TABLE_BYTES_2 : HUB_KERNEL_TABLE_BYTES,
                 .next = it->next,
                 .ticks = it->ticks};
    uint32_t refusal = (up ? hub_kernel_move_up : hub_kernel_move_down)(it->table, it->bytes,
                                                                        new.table, new.bytes);

    if (refusal == HUB_KERNEL_HIGH_WORD) {
        printf("move down: refused, there is a message of more than 32 bits\n");
    } else if (refusal != HUB_KERNEL_ACCEPTED) {
        printf("move: refusal %" PRIu32 "\n", refusal);
        exit(1);
    } else {
        *it = new;
        printf("move %s: done, %zu bytes; %" PRIu32 " waited, %" PRIu32 " wait\n",
               up ? "up" : "down", it->bytes, waited, all_waiters(it));
    }
}

/* Control orders the drive to run. An edition 1 table has no room for such an order. */
static void order_to_run(panel *at)
{
    hub_kernel_reply reply = try_to(at, CONTROL, (step){"", ORDER(RUN, FULL_SPEED)});

    printf("%-12s orders the drive to run: %s\n", staff[CONTROL].name,
           reply.refusal == HUB_KERNEL_BAD_ARGUMENT ? "refused, 64 bits on edition 1"
                                                    : class_of(reply.answer));
}

/* The one that runs waited: what became of its request stands in its record. */
static void tell(const panel *of, uint32_t who)
{
    printf("%-12s %s after %" PRIu32 " tick%s", staff[who].name, class_of(answer_of(of, who)),
           of->ticks, of->ticks == 1 ? "" : "s");
    if (who != OLD_DRIVE) {
        printf("\n");
        return;
    }
    printf(", told: ");
    print_order(of, who);
}

static void give_back(panel *to, uint32_t who)
{
    ask(to, who, (step){"", PUT(FAN, HUB_KERNEL_W)});
    printf("%-12s gives the fan back\n", staff[who].name);
}

/* Has nothing left to do. */
static void go(panel *from, uint32_t who)
{
    ask(from, who, (step){"", SLEEP(HUB_KERNEL_TICKS_MAX)});
}

/* Four wait; one of them is met on edition 2, one times out there, and the last two are met
 * before and after the move back. */
static void move_the_old_table(void)
{
    panel it;

    printf("a table of edition 1 is moved up while requests wait\n");
    begin(&it, HUB_KERNEL_TABLE_BYTES);
    add_hub(&it, HUB_KERNEL_RESOURCE, 1); /* FAN */
    add_hub(&it, HUB_KERNEL_FIFO, 1);     /* ORDERS */
    add_hub(&it, HUB_KERNEL_EVENT, 1);    /* STOPPED */
    come_all(&it);
    order_to_run(&it);
    pass_tick(&it);
    move(&it);
    order_to_run(&it); /* the drive is met, and more urgent than all others */
    tell(&it, OLD_DRIVE);
    move(&it); /* the order stands in the drive's record */
    pass_tick(&it);
    give_back(&it, OLD_DRIVE); /* and now it doesn't: this call's own answer does */
    go(&it, OLD_DRIVE);
    tell(&it, INSPECTOR);
    go(&it, INSPECTOR);
    tell(&it, DAY_CREW);
    move(&it);
    pass_tick(&it);
    give_back(&it, DAY_CREW);
    go(&it, DAY_CREW);
    tell(&it, NIGHT_CREW);
}

/* ---- The buffers ------------------------------------------------------- */

/* The smoke extraction's two fans, the second more urgent, and the buffers for their
 * readings. The buffers are memory of the host's own; the kernel deals out their numbers, so
 * that no buffer is in two hands. */
static const char *const fans[] = {"north fan", "south fan"};
enum { NORTH, SOUTH };
enum { BUFFERS = 0, HOW_MANY = 2 }; /* the hub, and its blocks */

static uint32_t free_buffers(const panel *of)
{
    return word_at(of, HUB_KERNEL_HUBS_AT_2 + HUB_KERNEL_HUB_BYTES * BUFFERS +
                           HUB_KERNEL_HUB_COUNT);
}

/* The number of the buffer is the word received. */
static void take_buffer(panel *from, uint32_t who)
{
    hub_kernel_reply reply = ask(from, who, (step){"", GET(BUFFERS, HUB_KERNEL_W)});

    printf("%-12s asks for a buffer: ", fans[who]);
    if (reply.answer == HUB_KERNEL_NOTHING_YET)
        printf("waits, %" PRIu32 " ahead of you\n", reply.ahead);
    else
        printf("%s, buffer %" PRIu32 "; %" PRIu32 " free\n", class_of(reply.answer),
               low_word_of(from, who), free_buffers(from));
}

static void give_buffer_back(panel *to, uint32_t who, uint32_t buffer)
{
    step call = {"", PUT(BUFFERS, HUB_KERNEL_W)};

    call.word = buffer;
    hub_kernel_reply reply = ask(to, who, call);
    printf("%-12s gives buffer %" PRIu32 " back: %s; %" PRIu32 " free\n", fans[who], buffer,
           class_of(reply.answer), free_buffers(to));
}

/* The north fan has both; one that it gives back goes to the south fan, who waits. There is no
 * buffer 2, and one that was given back can't be given back again; but it is used again. */
static void share_buffers(void)
{
    panel it;

    printf("%d buffers for smoke readings\n", (int)HOW_MANY);
    begin(&it, HUB_KERNEL_TABLE_BYTES_2);
    add_hub(&it, HUB_KERNEL_MEMORY, HOW_MANY);
    add_task(&it, 20); /* NORTH */
    take_buffer(&it, NORTH);
    take_buffer(&it, NORTH);
    add_task(&it, 10); /* SOUTH */
    take_buffer(&it, SOUTH);
    give_buffer_back(&it, NORTH, 2);
    give_buffer_back(&it, NORTH, 1);
    printf("%-12s %s, buffer %" PRIu32 "\n", fans[SOUTH], class_of(answer_of(&it, SOUTH)),
           low_word_of(&it, SOUTH));
    give_buffer_back(&it, SOUTH, 1);
    give_buffer_back(&it, SOUTH, 1);
    take_buffer(&it, SOUTH);
}

/* ---- What a step changed ----------------------------------------------- */

static const char *const task_names[] = {"checklist", "drive"};
static const char *const hub_names[] = {"fan", "orders", "stopped", "reversed"};

/* Names the word at this byte of an edition 2 table, if it is of a task or a hub in use. */
static void print_place(uint32_t byte)
{
    static const char *const task_words[] = {"state",      "suspended", "priority",
                                             "hub plus 1", "ticks",     "side",
                                             "word",       "high word", "answer"};
    static const char *const hub_words[] = {"kind", "count", "limit", "start"};

    if (byte >= HUB_KERNEL_STORES_AT_2) {
        byte -= HUB_KERNEL_STORES_AT_2;
        printf("%s, word %" PRIu32 " held", hub_names[byte / HUB_KERNEL_STORE_BYTES_2],
               byte % HUB_KERNEL_STORE_BYTES_2 / 4 + 1);
    } else if (byte >= HUB_KERNEL_WAITING_AT_2) {
        byte -= HUB_KERNEL_WAITING_AT_2;
        printf("%s, waiting list, entry %" PRIu32, hub_names[byte / HUB_KERNEL_LIST_BYTES],
               byte % HUB_KERNEL_LIST_BYTES / 4 + 1);
    } else if (byte >= HUB_KERNEL_READY_AT_2) {
        printf("ready list, entry %" PRIu32, (byte - HUB_KERNEL_READY_AT_2) / 4 + 1);
    } else if (byte >= HUB_KERNEL_HUBS_AT_2) {
        byte -= HUB_KERNEL_HUBS_AT_2;
        printf("%s, %s", hub_names[byte / HUB_KERNEL_HUB_BYTES],
               hub_words[byte % HUB_KERNEL_HUB_BYTES / 4]);
    } else if (byte >= HUB_KERNEL_TASKS_AT) {
        byte -= HUB_KERNEL_TASKS_AT;
        printf("%s, %s", task_names[byte / HUB_KERNEL_TASK_BYTES_2],
               task_words[byte % HUB_KERNEL_TASK_BYTES_2 / 4]);
    } else {
        printf("contents, word %" PRIu32, byte / 4);
    }
}

/* Prints what is different now, and puts it into the copy from before: that is the same
 * table then, and the whole of it never had to be sent. */
static void bring_up_to_date(panel *copy, const panel *now)
{
    uint32_t places[HUB_KERNEL_COMPARE_WORDS_2];
    hub_kernel_compare_reply reply = hub_kernel_compare(copy->table, copy->bytes, now->table,
                                                        now->bytes, places,
                                                        sizeof places / sizeof *places);

    if (reply.refusal != HUB_KERNEL_ACCEPTED) { /* count 0 alone would say "nothing changed" */
        printf("compare: refusal %" PRIu32 "\n", reply.refusal);
        exit(1);
    }
    for (uint32_t i = 0; i < reply.count; i++) {
        const uint32_t *entry = places + 3 * i;
        printf("    ");
        print_place(4 * entry[0]);
        printf(": %" PRIu32 ", now %" PRIu32 "\n", entry[1], entry[2]);
        put_word(copy, 4 * entry[0], entry[2]);
    }
    printf("    %" PRIu32 " of %d words changed; the copy is %s\n", reply.count,
           (int)HUB_KERNEL_TABLE_WORDS_2,
           memcmp(copy->table, now->table, now->bytes) == 0 ? "up to date" : "WRONG");
}

/* The drive has to wait for its order; the order meets it; a tick when nobody counts ticks
 * leaves every word as it was. */
static void show_changes(void)
{
    panel it, copy;

    printf("what a step changed\n");
    set_up(&it);
    copy = it;
    ask(&it, DRIVE, (step){"", GET(ORDERS, HUB_KERNEL_W)});
    printf("drive        waits for an order\n");
    bring_up_to_date(&copy, &it);
    ask(&it, CHECKLIST, (step){"", ORDER(RUN, FULL_SPEED)});
    printf("checklist    orders full speed\n");
    bring_up_to_date(&copy, &it);
    pass_tick(&it);
    printf("a tick passes\n");
    bring_up_to_date(&copy, &it);
}

int main(void)
{
    walk("the drive answers", prompt_drive);
    walk("the drive hangs", stuck_drive);
    queue_for_the_fan();
    lend_priority();
    move_the_old_table();
    share_buffers();
    show_changes();
    return 0;
}
