/* Times of the proved kernel against the second program, side by side in one
 * process: the same recorded accepted calls, a refused call, the summary, on each edition,
 * the moves, and the comparison of a table with the one before its last call. The floor is
 * reading the table's bytes once (of a comparison: both tables' bytes). Medians of many rounds, in
 * each of which all take turns; what counts are the ratios. The rows of edition 1 are drawn
 * as they were before there was an edition 2, without high words. Priority inheritance changes
 * none of the runs that these rows are recorded from, so their calls are those of before
 * M-108; it has rows of its own.
 *
 * The last lines look for the worst call, on tables of every family that the generator draws,
 * damaged ones among them: it may take at most 20 times as long as a mixed call.
 *
 * The second program is timed over bytes, as the kernel is, and over its own
 * words, where it has no bytes to turn into words. */
#define _POSIX_C_SOURCE 200809L

#include <inttypes.h>
#include <stdio.h>
#include <stdlib.h>
#include <string.h>
#include <time.h>

#include "gen.h"
#include "hub_kernel.h"
#include "numbers.h"
#include "second.h"

enum { CALLS = 64, SETTLE = 200, SEEDS = 10000, ROUNDS_MAX = 20001 };
enum { KERNEL, SECOND_BYTES, SECOND_WORDS, FLOOR, SIDES };

typedef struct {
    const char *name;
    const layout *form;         /* the table's edition */
    uint32_t words[WORDS_MOST]; /* the table before the first call */
    uint8_t bytes[BYTES_MOST];  /* the same */
    uint32_t after[WORDS_MOST]; /* the table after the first call, for the comparison */
    uint8_t after_bytes[BYTES_MOST];
    uint32_t calls[CALLS][CALL_NUMBERS];
    uint32_t count;
    uint32_t requests; /* how many of the calls are service 1 */
    uint32_t entries;  /* in the longest waiting list, summed over the calls */
    uint32_t hubs;     /* of which the summaries are asked in turn */
} load;

/* What a round measures: one side, over all calls of a load. Gives a number so
 * that no work can be left out. */
typedef uint32_t (*work)(const load *it, uint8_t *bytes, uint32_t *words);

static uint64_t nanoseconds(void)
{
    struct timespec now;
    clock_gettime(CLOCK_MONOTONIC, &now);
    return (uint64_t)now.tv_sec * 1000000000 + (uint64_t)now.tv_nsec;
}

static size_t bytes_of(const load *it) { return 4 * (size_t)it->form->words; }

static void lay_bytes(load *it)
{
    for (size_t i = 0; i < bytes_of(it); i++) {
        it->bytes[i] = (uint8_t)(it->words[i / 4] >> i % 4 * 8);
        it->after_bytes[i] = (uint8_t)(it->after[i / 4] >> i % 4 * 8);
    }
}

/* ---- The loads --------------------------------------------------------- */

static uint32_t longest_list(const uint32_t *words)
{
    uint32_t longest = 0;

    for (uint32_t hub = 0; hub < HUBS; hub++) {
        uint32_t length = 0;
        while (length < LIST_WORDS && words[list_place(words, hub) + length] != 0)
            length++;
        longest = length > longest ? length : longest;
    }
    return longest;
}

/* A run from Blank that adds its tasks and hubs first; once it has settled, its
 * accepted calls, each drawn on the table that the one before left. */
static int record(load *it, uint64_t seed, uint32_t tasks, uint32_t hubs)
{
    uint32_t words[WORDS_MOST] = {0}, call[CALL_NUMBERS];
    gen_random random;
    gen_mood mood;

    gen_seed(&random, seed);
    gen_draw_mood_of(&random, &mood, BOARD); /* as it was before there were Memories */
    mood.tasks = tasks;
    mood.hubs = hubs;
    mood.refused = 0;
    mood.high = it->form->edition == EDITION_1 ? 0 : 60;
    it->count = it->requests = it->entries = 0;
    for (uint32_t i = 0; i < SETTLE + 4 * CALLS && it->count < CALLS; i++) {
        gen_call(&random, &mood, words, call);
        if (i < SETTLE) {
            second_call(words, it->form->words, call);
            memcpy(it->words, words, sizeof words);
        } else if (call[C_SERVICE] != BLANK && call[C_SERVICE] < ADD_TASK &&
                   second_call(words, it->form->words, call).refusal == ACCEPTED) {
            memcpy(it->calls[it->count++], call, sizeof call);
            it->requests += call[C_SERVICE] == HUB_REQUEST;
            it->entries += longest_list(words);
        }
    }
    lay_bytes(it);
    return it->count == CALLS && it->words[TASKS_IN_USE_AT] == tasks &&
           it->words[HUBS_IN_USE_AT] == hubs;
}

/* The first run half of whose calls are hub requests and whose longest waiting
 * list has `entries` entries or more in the mean. */
static load draw_load(const char *name, const layout *form, uint32_t tasks, uint32_t hubs,
                      uint32_t entries)
{
    load it = {.form = form};

    for (uint64_t seed = 0; seed < SEEDS; seed++)
        if (record(&it, seed, tasks, hubs) && it.requests >= CALLS / 2 &&
            it.entries >= entries * CALLS) {
            it.name = name;
            it.hubs = 8;
            return it;
        }
    fprintf(stderr, "bench: no run for %s\n", name);
    exit(1);
}

/* A table whose last word alone is wrong, and a call on it that is refused. */
static load draw_damaged(const char *name, const load *like)
{
    load it = *like;

    it.name = name;
    it.words[it.form->words - 1] = 1;
    lay_bytes(&it);
    for (uint32_t i = 0; i < CALLS; i++)
        memcpy(it.calls[i], (uint32_t[CALL_NUMBERS]){TICK}, sizeof it.calls[i]);
    if (second_call(it.words, it.form->words, it.calls[0]).refusal != NOT_WELL_FORMED) {
        fprintf(stderr, "bench: %s isn't refused\n", name);
        exit(1);
    }
    return it;
}

/* 16 tasks, and of these so many that wait at one Port. */
static load draw_queue(const char *name, const layout *form, uint32_t waiters)
{
    load it = {.name = name, .form = form, .count = CALLS, .hubs = 1};
    uint32_t next = 0;

    second_call(it.words, form->words, (uint32_t[CALL_NUMBERS]){BLANK});
    second_call(it.words, form->words, (uint32_t[CALL_NUMBERS]){ADD_HUB, 0, PORT});
    for (uint32_t task = 0; task < TASKS; task++)
        next = second_call(it.words, form->words, (uint32_t[CALL_NUMBERS]){ADD_TASK, 0, task, 1}).next;
    for (uint32_t i = 0; i < waiters; i++)
        next = second_call(it.words, form->words, (uint32_t[CALL_NUMBERS]){HUB_REQUEST, next - 1, 0, GET, W}).next;
    if (second_summary(it.words, form->words, 0).count != waiters) {
        fprintf(stderr, "bench: %s: other waiters\n", name);
        exit(1);
    }
    lay_bytes(&it);
    return it;
}

/* An edition 1 table, moved up: no high word keeps it from moving down again. */
static load draw_moved(const char *name, const load *from)
{
    load it = *from;

    it.name = name;
    it.form = &layouts[1];
    if (second_move_up(from->words, WORDS, it.words, WORDS_2) != ACCEPTED) {
        fprintf(stderr, "bench: %s: not moved\n", name);
        exit(1);
    }
    lay_bytes(&it);
    return it;
}

/* Two neighbours of one run: the table, and the same after the first call. */
static load draw_neighbours(const char *name, const load *from)
{
    load it = *from;

    it.name = name;
    memcpy(it.after, it.words, sizeof it.after);
    if (second_call(it.after, it.form->words, it.calls[0]).refusal != ACCEPTED ||
        memcmp(it.after, it.words, bytes_of(&it)) == 0) {
        fprintf(stderr, "bench: %s: nothing changed\n", name);
        exit(1);
    }
    lay_bytes(&it);
    return it;
}

static uint32_t call_on(load *it, const uint32_t *call)
{
    second_reply reply = second_call(it->words, it->form->words, call);

    if (reply.refusal != ACCEPTED) {
        fprintf(stderr, "bench: %s: service %" PRIu32 " is refused\n", it->name, call[C_SERVICE]);
        exit(1);
    }
    return reply.next;
}

/* 16 tasks, ever more urgent, each with a lock of its own but the last; so many of them are a
 * chain, each waiting for the lock of the one before it. The others sleep, and the head runs. */
static load draw_chain(const char *name, const layout *form, uint32_t length)
{
    load it = {.name = name, .form = form, .hubs = HUBS};

    call_on(&it, (uint32_t[CALL_NUMBERS]){BLANK});
    for (uint32_t hub = 0; hub < HUBS - 1; hub++)
        call_on(&it, (uint32_t[CALL_NUMBERS]){ADD_HUB, 0, RESOURCE, 0, 0, 1});
    call_on(&it, (uint32_t[CALL_NUMBERS]){ADD_HUB, 0, SEMAPHORE, 0, 0, 4});
    for (uint32_t task = 0; task < TASKS; task++) {
        call_on(&it, (uint32_t[CALL_NUMBERS]){ADD_TASK, 0, 200 - task, 1});
        if (task < HUBS - 1)
            call_on(&it, (uint32_t[CALL_NUMBERS]){HUB_REQUEST, task, task, GET, W});
        if (task > 0 && task < length)
            call_on(&it, (uint32_t[CALL_NUMBERS]){HUB_REQUEST, task, task - 1, GET, W});
        else if (task > 0)
            call_on(&it, (uint32_t[CALL_NUMBERS]){SLEEP, task, 0, 0, 0, TICKS_MAX});
    }
    return it;
}

/* Calls that leave who waits for whom: what the head does beside its lock, and Ticks. */
static load draw_beside(const char *name, const layout *form, uint32_t length)
{
    static const uint32_t beside[][CALL_NUMBERS] = {
        {YIELD, 0},
        {HUB_REQUEST, 0, HUBS - 1, PUT, W},
        {HUB_REQUEST, 0, HUBS - 1, GET, W},
        {TICK},
        {HUB_REQUEST, 0, 1, GET, NW},
        {SUSPEND, 0, 7},
        {RESUME, 0, 7},
        {START, 0, 7},
    };
    load it = draw_chain(name, form, length), after;

    after = it;
    for (it.count = 0; it.count < CALLS; it.count++) {
        memcpy(it.calls[it.count], beside[it.count % 8], sizeof it.calls[0]);
        call_on(&after, it.calls[it.count]);
    }
    lay_bytes(&it);
    return it;
}

/* The last of a chain of 16 times out, waits again, and so on: each call changes the effective
 * priorities of the 15 others. */
static load draw_changing(const char *name, const layout *form)
{
    load it = draw_chain(name, form, TASKS), after;

    it.words[task_place(it.words, TASKS - 1) + T_TICKS] = 1;
    after = it;
    for (it.count = 0; it.count < CALLS; it.count++) {
        const uint32_t again[CALL_NUMBERS] = {HUB_REQUEST, TASKS - 1, TASKS - 2, GET, WT, 1};
        memcpy(it.calls[it.count], it.count % 2 == 0 ? (const uint32_t[CALL_NUMBERS]){TICK} : again,
               sizeof again);
        if (call_on(&after, it.calls[it.count]) != (it.count % 2 == 0 ? TASKS : 1)) {
            fprintf(stderr, "bench: %s: another task is next\n", name);
            exit(1);
        }
    }
    lay_bytes(&it);
    return it;
}

/* ---- The work ---------------------------------------------------------- */

/* A kernel's calls: this commit's, or an earlier one's that is linked beside it. */
static inline __attribute__((always_inline)) uint32_t calls_by(__typeof__(hub_kernel_call) *kernel,
                                                               const load *it, uint8_t *bytes)
{
    uint32_t sum = 0;

    for (uint32_t i = 0; i < it->count; i++) {
        const uint32_t *call = it->calls[i];
        hub_kernel_reply reply = kernel(bytes, bytes_of(it), call[0], call[1], call[2], call[3],
                                        call[4], call[5], call[6], call[7]);
        sum += reply.next + reply.ahead;
    }
    return sum;
}

static uint32_t kernel_calls(const load *it, uint8_t *bytes, uint32_t *words)
{
    (void)words;
    return calls_by(hub_kernel_call, it, bytes);
}

static uint32_t second_byte_calls(const load *it, uint8_t *bytes, uint32_t *words)
{
    uint32_t sum = 0;

    (void)words;
    for (uint32_t i = 0; i < it->count; i++) {
        second_reply reply = second_call_bytes(bytes, bytes_of(it), it->calls[i]);
        sum += reply.next + reply.ahead;
    }
    return sum;
}

static uint32_t second_word_calls(const load *it, uint8_t *bytes, uint32_t *words)
{
    uint32_t sum = 0;

    (void)bytes;
    for (uint32_t i = 0; i < it->count; i++) {
        second_reply reply = second_call(words, it->form->words, it->calls[i]);
        sum += reply.next + reply.ahead;
    }
    return sum;
}

static uint32_t kernel_summaries(const load *it, uint8_t *bytes, uint32_t *words)
{
    uint32_t sum = 0;

    (void)words;
    for (uint32_t i = 0; i < it->count; i++)
        sum += hub_kernel_summary(bytes, bytes_of(it), i % it->hubs).mask;
    return sum;
}

static uint32_t second_byte_summaries(const load *it, uint8_t *bytes, uint32_t *words)
{
    uint32_t sum = 0;

    (void)words;
    for (uint32_t i = 0; i < it->count; i++)
        sum += second_summary_bytes(bytes, bytes_of(it), i % it->hubs).mask;
    return sum;
}

static uint32_t second_word_summaries(const load *it, uint8_t *bytes, uint32_t *words)
{
    uint32_t sum = 0;

    (void)bytes;
    for (uint32_t i = 0; i < it->count; i++)
        sum += second_summary(words, it->form->words, i % it->hubs).mask;
    return sum;
}

/* The move that the table's edition has, to a table that is there already. */
static uint32_t kernel_moves(const load *it, uint8_t *bytes, uint32_t *words)
{
    uint8_t to[BYTES_MOST] = {0};
    uint32_t sum = 0;
    int up = it->form->edition == EDITION_1;

    (void)words;
    for (uint32_t i = 0; i < it->count; i++) {
        sum += up ? hub_kernel_move_up(bytes, BYTES, to, BYTES_2)
                  : hub_kernel_move_down(bytes, BYTES_2, to, BYTES);
        sum += to[i];
    }
    return sum;
}

static uint32_t second_byte_moves(const load *it, uint8_t *bytes, uint32_t *words)
{
    uint8_t to[BYTES_MOST] = {0};
    uint32_t sum = 0;
    int up = it->form->edition == EDITION_1;

    (void)words;
    for (uint32_t i = 0; i < it->count; i++) {
        sum += up ? second_move_up_bytes(bytes, BYTES, to, BYTES_2)
                  : second_move_down_bytes(bytes, BYTES_2, to, BYTES);
        sum += to[i];
    }
    return sum;
}

/* The byte that the others add, of words. */
static uint32_t second_word_moves(const load *it, uint8_t *bytes, uint32_t *words)
{
    uint32_t to[WORDS_MOST] = {0}, sum = 0;
    int up = it->form->edition == EDITION_1;

    (void)bytes;
    for (uint32_t i = 0; i < it->count; i++) {
        sum += up ? second_move_up(words, WORDS, to, WORDS_2)
                  : second_move_down(words, WORDS_2, to, WORDS);
        sum += to[i / 4] >> i % 4 * 8 & 0xFF;
    }
    return sum;
}

/* The round's copy of the table with the load's own of it after a call. */
static uint32_t kernel_compares(const load *it, uint8_t *bytes, uint32_t *words)
{
    uint32_t places[ENTRY_WORDS * WORDS_MOST] = {0}, sum = 0;

    (void)words;
    for (uint32_t i = 0; i < it->count; i++)
        sum += hub_kernel_compare(bytes, bytes_of(it), it->after_bytes, bytes_of(it), places,
                                  ENTRY_WORDS * WORDS_MOST).count +
               places[i % 3];
    return sum;
}

static uint32_t second_byte_compares(const load *it, uint8_t *bytes, uint32_t *words)
{
    uint32_t places[ENTRY_WORDS * WORDS_MOST] = {0}, sum = 0;

    (void)words;
    for (uint32_t i = 0; i < it->count; i++)
        sum += second_compare_bytes(bytes, bytes_of(it), it->after_bytes, bytes_of(it), places,
                                    ENTRY_WORDS * WORDS_MOST).count +
               places[i % 3];
    return sum;
}

static uint32_t second_word_compares(const load *it, uint8_t *bytes, uint32_t *words)
{
    uint32_t places[ENTRY_WORDS * WORDS_MOST] = {0}, sum = 0;

    (void)bytes;
    for (uint32_t i = 0; i < it->count; i++)
        sum += second_compare(words, it->form->words, it->after, it->form->words, places,
                              ENTRY_WORDS * WORDS_MOST).count +
               places[i % 3];
    return sum;
}

/* The bytes are told to change each time, or the compiler would read them once.
 * Unrolled, so that the loop's own place in the program weighs nothing; and made for each
 * length, which the compiler then knows. */
static inline __attribute__((always_inline)) uint32_t read_bytes(const load *it,
                                                                 const uint8_t *bytes,
                                                                 size_t length)
{
    uint32_t sum = 0, word;

    for (uint32_t i = 0; i < it->count; i++) {
        __asm__ volatile("" : : "r"(bytes) : "memory");
#pragma GCC unroll 10
        for (size_t j = 0; j < length; j += sizeof word) {
            memcpy(&word, bytes + j, sizeof word);
            sum += word;
        }
    }
    return sum;
}

static uint32_t floor_reads(const load *it, uint8_t *bytes, uint32_t *words)
{
    (void)words;
    return it->form->edition == EDITION_1 ? read_bytes(it, bytes, BYTES)
                                          : read_bytes(it, bytes, BYTES_2);
}

static uint32_t floor_reads_both(const load *it, uint8_t *bytes, uint32_t *words)
{
    (void)words;
    return it->form->edition == EDITION_1
               ? read_bytes(it, bytes, BYTES) + read_bytes(it, it->after_bytes, BYTES)
               : read_bytes(it, bytes, BYTES_2) + read_bytes(it, it->after_bytes, BYTES_2);
}

/* ---- The rounds -------------------------------------------------------- */

static int by_size(const void *a, const void *b)
{
    uint64_t x = *(const uint64_t *)a, y = *(const uint64_t *)b;
    return (x > y) - (x < y);
}

static double median(uint64_t *times, uint32_t rounds)
{
    qsort(times, rounds, sizeof *times, by_size);
    return (double)times[rounds / 2] / CALLS;
}

/* One round of one side, on the table anew. */
static uint64_t time_round(const load *it, work side, uint32_t *sum)
{
    uint8_t bytes[BYTES_MOST];
    uint32_t words[WORDS_MOST];

    memcpy(bytes, it->bytes, bytes_of(it));
    memcpy(words, it->words, bytes_of(it));
    uint64_t since = nanoseconds();
    *sum = side(it, bytes, words);
    return nanoseconds() - since;
}

/* Prints a row. */
static void measure(const load *it, const work sides[SIDES], uint32_t rounds)
{
    static uint64_t times[SIDES][ROUNDS_MAX];
    double took[SIDES];
    uint32_t sums[SIDES];

    for (uint32_t round = 0; round < rounds; round++)
        for (int side = 0; side < SIDES; side++)
            times[side][round] = time_round(it, sides[side], &sums[side]);
    if (sums[KERNEL] != sums[SECOND_BYTES] || sums[KERNEL] != sums[SECOND_WORDS]) {
        printf("%s: FAILED, the two programs differ\n", it->name);
        exit(1);
    }
    for (int side = 0; side < SIDES; side++)
        took[side] = median(times[side], rounds);
    printf("%-37s %8.0f %8.0f %8.0f %8.0f  %8.2f %8.2f %8.2f\n", it->name, took[KERNEL],
           took[SECOND_BYTES], took[SECOND_WORDS], took[FLOOR], took[KERNEL] / took[SECOND_BYTES],
           took[KERNEL] / took[SECOND_WORDS], took[KERNEL] / took[FLOOR]);
    fflush(stdout);
}

/* ---- The worst call ---------------------------------------------------- */

enum { WORST_TABLES = 20, WORST_TRIES = 15, WORST_AGAIN = 100, WORST_MOST = 20 };

/* The least of some tries, each on the table anew: what the call takes when nothing else
 * comes between. */
static double least_time(const uint32_t *words, size_t length, const uint32_t *call)
{
    uint8_t bytes[BYTES_MOST];
    uint64_t least = UINT64_MAX;
    static volatile uint32_t sum; /* no work can be left out */

    for (int try = 0; try < WORST_TRIES; try++) {
        for (size_t i = 0; i < length; i++)
            bytes[i] = (uint8_t)(words[i / 4] >> i % 4 * 8);
        uint64_t since = nanoseconds();
        sum += hub_kernel_call(bytes, length, call[0], call[1], call[2], call[3], call[4], call[5],
                               call[6], call[7]).next;
        uint64_t took = nanoseconds() - since;
        least = took < least ? took : least;
    }
    return (double)least;
}

typedef void (*draw_call)(gen_random *, uint32_t, uint32_t *, uint32_t *);

static const struct {
    const char *name;
    draw_call draw;
} with_calls[] = {
    {"stops", gen_stop},   {"boards", gen_board}, {"pools", gen_pool},
    {"queues", gen_queue}, {"chains", gen_chain},
};
enum { WITH_CALLS = sizeof with_calls / sizeof *with_calls, OTHERS = WITH_CALLS + 3 };

/* A table of that family, and a call on it: damaged ones first, then what well-formed ones
 * there are. */
static const char *draw_family(gen_random *random, uint32_t edition, size_t family, uint32_t *words,
                               uint32_t *call)
{
    size_t well_formed = family - gen_damages(edition);
    uint32_t other[WORDS_MOST];
    gen_mood mood;

    memcpy(call, (uint32_t[CALL_NUMBERS]){TICK}, CALL_NUMBERS * sizeof *call);
    if (family < gen_damages(edition)) {
        gen_damaged(random, edition, family, words);
        return gen_damage_name(family);
    }
    if (well_formed < WITH_CALLS) {
        with_calls[well_formed].draw(random, edition, words, call);
        return with_calls[well_formed].name;
    }
    if (well_formed == WITH_CALLS) {
        gen_apart(random, edition, words, other);
        return "all words apart";
    }
    if (well_formed == WITH_CALLS + 1)
        gen_set_up(random, edition, words);
    else
        gen_table(random, edition, words);
    gen_draw_mood(random, &mood);
    gen_call(random, &mood, words, call);
    return well_formed == WITH_CALLS + 1 ? "set-ups" : "tables";
}

/* Finds the worst call, then times it and a mixed one in turns, since the machine may have become
 * slower or faster meanwhile. Whether it is within the bound. */
static int measure_worst(const layout *form, const load *mixed)
{
    size_t families = gen_damages(form->edition) + OTHERS, length = 4 * (size_t)form->words;
    uint32_t words[WORDS_MOST], call[CALL_NUMBERS], worst_words[WORDS_MOST], worst[CALL_NUMBERS], sum;
    static uint64_t most_times[WORST_AGAIN], mixed_times[WORST_AGAIN];
    const char *family = "";
    gen_random random;
    double most = 0;

    gen_seed(&random, form->edition);
    for (size_t i = 0; i < WORST_TABLES * families; i++) {
        const char *name = draw_family(&random, form->edition, i % families, words, call);
        double took = least_time(words, length, call);
        /* other work on the machine may outlast the tries: who seems to be the worst is asked again */
        for (int again = 0; took > most && again < WORST_AGAIN; again++) {
            double later = least_time(words, length, call);
            took = later < took ? later : took;
        }
        if (took > most) {
            most = took;
            family = name;
            memcpy(worst_words, words, length);
            memcpy(worst, call, sizeof call);
        }
    }
    for (int again = 0; again < WORST_AGAIN; again++) {
        most_times[again] = (uint64_t)least_time(worst_words, length, worst);
        mixed_times[again] = time_round(mixed, kernel_calls, &sum);
    }
    most = median(most_times, WORST_AGAIN) * CALLS; /* one call's, not a round's */
    double over = most / median(mixed_times, WORST_AGAIN);
    printf("the worst call, edition %" PRIu32 ": %.0f ns, %.2f times a mixed one (at most %d), "
           "of %zu families: %s\n",
           form->edition, most, over, (int)WORST_MOST, families, family);
    return over <= WORST_MOST;
}

#ifdef EARLIER
/* The archive of an earlier commit, its names behind earlier_ (tests/bench/against). */
__typeof__(hub_kernel_call) earlier_hub_kernel_call;

static uint32_t earlier_calls(const load *it, uint8_t *bytes, uint32_t *words)
{
    (void)words;
    return calls_by(earlier_hub_kernel_call, it, bytes);
}

/* The kernel's time over the earlier one's, in turns. What they answer may differ: a change
 * request may have come between. */
static double over_earlier(const load *it, uint32_t rounds)
{
    static uint64_t now[ROUNDS_MAX], then[ROUNDS_MAX];
    uint32_t sum;

    for (uint32_t round = 0; round < rounds; round++) {
        now[round] = time_round(it, kernel_calls, &sum);
        then[round] = time_round(it, earlier_calls, &sum);
    }
    return median(now, rounds) / median(then, rounds);
}
#else
/* The kernel's side alone, for a counter of instructions around the program. */
static uint32_t repeat(const load *it, work side, uint32_t rounds)
{
    uint32_t sum = 0;

    for (uint32_t round = 0; round < rounds; round++) {
        uint8_t bytes[BYTES_MOST];

        memcpy(bytes, it->bytes, bytes_of(it));
        sum += side(it, bytes, NULL);
    }
    return sum;
}
#endif

/* ---- The rows ---------------------------------------------------------- */

static const work calls[SIDES] = {kernel_calls, second_byte_calls, second_word_calls, floor_reads};
static const work summaries[SIDES] = {kernel_summaries, second_byte_summaries,
                                      second_word_summaries, floor_reads};
static const work moves[SIDES] = {kernel_moves, second_byte_moves, second_word_moves, floor_reads};
static const work compares[SIDES] = {kernel_compares, second_byte_compares, second_word_compares,
                                     floor_reads_both};

typedef struct {
    load of;
    const work *sides;
} row;

enum { ROWS_OF_EDITION = 8, MOVES_AT = 2 * ROWS_OF_EDITION, COMPARES_AT = MOVES_AT + 2 };
enum { LOCK_ROWS = 4, LOCKS_AT = COMPARES_AT + 2, ROWS = LOCKS_AT + EDITIONS * LOCK_ROWS };

static void named(row *to, const load *of, const char *name, const work *sides)
{
    to->of = *of;
    to->of.name = name;
    to->sides = sides;
}

static void draw_rows(row *rows, const layout *form)
{
    load few = draw_load("8/8", form, 8, 8, 2), full = draw_load("16/16", form, 16, 16, 10);
    load damaged = draw_damaged("damaged", &full);
    load none = draw_queue("none", form, 0), one = draw_queue("one", form, 1);
    load fifteen = draw_queue("fifteen", form, 15);

    named(&rows[0], &few, "calls, 8 tasks, 8 hubs", calls);
    named(&rows[1], &full, "calls, 16 tasks, 16 hubs, long lists", calls);
    named(&rows[2], &damaged, "refused, last word damaged, 16/16", calls);
    named(&rows[3], &few, "summary, 8/8", summaries);
    named(&rows[4], &full, "summary, 16/16, long lists", summaries);
    named(&rows[5], &none, "summary of a list without waiters", summaries);
    named(&rows[6], &one, "summary of a list of one", summaries);
    named(&rows[7], &fifteen, "summary of a list of fifteen", summaries);
}

/* The chains: the same calls on all but the last. */
static void draw_lock_rows(row *rows, const layout *form)
{
    load none = draw_beside("none", form, 1), three = draw_beside("three", form, 3);
    load all = draw_beside("all", form, TASKS), changing = draw_changing("changing", form);

    named(&rows[0], &none, "calls, no lock waited for", calls);
    named(&rows[1], &three, "calls, a chain of 3", calls);
    named(&rows[2], &all, "calls, a chain of 16", calls);
    named(&rows[3], &changing, "calls, a chain of 16, 15 change", calls);
}

/* Gives what a call of the kernel took in the first row, the mixed calls. */
static void print_edition(const row *rows, uint32_t rounds)
{
    printf("edition %" PRIu32 "; longest waiting list, mean over the calls: %.1f at 8/8, %.1f at 16/16\n",
           rows->of.form->edition, (double)rows[0].of.entries / CALLS,
           (double)rows[1].of.entries / CALLS);
    for (int i = 0; i < ROWS_OF_EDITION; i++)
        measure(&rows[i].of, rows[i].sides, rounds);
}

int main(int count, char **words)
{
    static row rows[ROWS]; /* edition 1, edition 2, the moves, the comparisons, the locks */
    int fine = 1;
    long rounds = count == 2 || count == 3 ? atol(words[1]) : 0;
    long alone = count == 3 ? atol(words[2]) : 0;

    if (rounds < 1 || rounds > ROUNDS_MAX || alone < 0 || alone > ROWS ||
        (count == 3 && alone == 0)) {
        fprintf(stderr, "usage: bench ROUNDS (1 to %d) [ROW (1 to %d): the kernel alone, no times]\n",
                ROUNDS_MAX, ROWS);
        return 2;
    }
    draw_rows(rows, &layouts[0]);
    draw_rows(rows + ROWS_OF_EDITION, &layouts[1]);
    load full = rows[1].of, moved = draw_moved("moved", &full);
    named(&rows[MOVES_AT], &full, "move up, 16/16, long lists", moves);
    named(&rows[MOVES_AT + 1], &moved, "move down, 16/16, long lists", moves);
    for (int i = 0; i < EDITIONS; i++) {
        load neighbours = draw_neighbours("neighbours", &rows[i * ROWS_OF_EDITION + 1].of);
        named(&rows[COMPARES_AT + i], &neighbours,
              i == 0 ? "neighbours, 16/16, edition 1" : "neighbours, 16/16, edition 2", compares);
        draw_lock_rows(rows + LOCKS_AT + i * LOCK_ROWS, &layouts[i]);
    }

    if (alone != 0) {
        const row *it = &rows[alone - 1];
#ifdef EARLIER
        if (it->sides != calls) {
            fprintf(stderr, "bench: row %ld makes no calls: %s\n", alone, it->of.name);
            return 2;
        }
        printf("%.3f %s, edition %d\n", over_earlier(&it->of, (uint32_t)rounds), it->of.name,
               it->of.form->edition);
#else
        printf("%" PRIu32 "\n", repeat(&it->of, it->sides[KERNEL], (uint32_t)rounds));
#endif
        return 0;
    }
    printf("%-37s %35s  %26s\n", "", "ns a call", "kernel's time over");
    printf("%-37s %8s %8s %8s %8s  %8s %8s %8s\n", "", "kernel", "C bytes", "C words", "floor",
           "C bytes", "C words", "floor");
    for (int i = 0; i < EDITIONS; i++)
        print_edition(rows + i * ROWS_OF_EDITION, (uint32_t)rounds);
    printf("moves\n");
    for (int i = MOVES_AT; i < COMPARES_AT; i++)
        measure(&rows[i].of, rows[i].sides, (uint32_t)rounds);
    printf("comparisons\n");
    for (int i = COMPARES_AT; i < LOCKS_AT; i++)
        measure(&rows[i].of, rows[i].sides, (uint32_t)rounds);
    for (int i = LOCKS_AT; i < ROWS; i++) {
        if ((i - LOCKS_AT) % LOCK_ROWS == 0)
            printf("locks, edition %d\n", (i - LOCKS_AT) / LOCK_ROWS + 1);
        measure(&rows[i].of, rows[i].sides, (uint32_t)rounds);
    }
    for (int i = 0; i < EDITIONS; i++)
        fine = measure_worst(&layouts[i], &rows[i * ROWS_OF_EDITION].of) && fine;
    if (!fine)
        printf("bench: FAILED, a call takes more than %d times a mixed one\n", (int)WORST_MOST);
    return fine ? 0 : 1;
}
