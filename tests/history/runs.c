/* Fourteen runs of the second program's generator, and what its ledger says of them:
 * `runs` writes crates/runs/proofs/Generated.antt, in the layout of `rt fmt`,
 * to standard output and the figures to standard error.
 *
 * Each value in the file is the second program's: the calls from gen.c, replies
 * and tables from second.c, classes and the words of the meetings from ledger.c.
 * The seeds of the first ten were searched for, so that 39 of the first 54 slips of
 * second/mutants show in the file (40 before M-101); they draw no Boards, and so are as
 * they were before M-103. The next two were searched for with hub 0 a Board: updates
 * that meet none, one, two and more readers, one of them suspended; reads that take
 * nothing, fail, time out and are withdrawn; wipes, also while readers wait. Of the 26
 * slips of M-103, 84 to 109, 15 show. These twelve stay on edition 1, without high words.
 *
 * The last two move (M-105). Both begin on edition 1, and one has a request there that is
 * refused for its high word. Run 13 moves up while several requests wait, one of them with
 * ticks, and goes on with high words. Run 14 moves up, too; a move down is refused with 9;
 * once the high words are gone, another is done, and the run goes on on edition 1. Of the 76
 * slips of M-105, 138 to 213, 20 show; most others are of lengths, bytes and damaged tables,
 * which no run has.
 *
 * M-108 changes none of them: calls, classes and words are those of before.
 *
 * The program fails unless all runs together have every class, meetings alone and with a
 * waiter, an update that meets more than one, every service, the refusals 3 to 6 and every
 * kind of hub, and unless each of the last two shows what moved_shown asks. */
#include <inttypes.h>
#include <stdio.h>
#include <stdlib.h>
#include <string.h>

#include "gen.h"
#include "ledger.h"
#include "numbers.h"
#include "second.h"

enum { CALLS = 24, MOVED_CALLS = 30, MOVES = 3, STEPS = MOVED_CALLS + MOVES };

/* What a run is drawn from: hubs are of kinds 1 to `kinds`. A run that moves does so before
 * the calls with these numbers (0 none), to the edition that it isn't of; between the moves
 * the percent of calls with a high word changes. */
typedef struct {
    uint64_t seed;
    uint32_t kinds;
    size_t calls;
    size_t move_at[MOVES];
    uint32_t high[MOVES + 1];
} plan;

static const plan plans[] = {
    {410789, RESOURCE, CALLS, {0}, {0}},
    {368890, RESOURCE, CALLS, {0}, {0}},
    {603406, RESOURCE, CALLS, {0}, {0}},
    {2178998, RESOURCE, CALLS, {0}, {0}},
    {2843506, RESOURCE, CALLS, {0}, {0}},
    {383324, RESOURCE, CALLS, {0}, {0}},
    {1963138, RESOURCE, CALLS, {0}, {0}},
    {2005245, RESOURCE, CALLS, {0}, {0}},
    {120749, RESOURCE, CALLS, {0}, {0}},
    {1584567, RESOURCE, CALLS, {0}, {0}},
    {2481147, BOARD, CALLS, {0}, {0}},
    {2791289, BOARD, CALLS, {0}, {0}},
    {18093051, BOARD, MOVED_CALLS, {15}, {10, 60}},
    {89259, BOARD, MOVED_CALLS, {12, 17, 24}, {10, 80, 0, 0}},
};
enum { RUNS = sizeof plans / sizeof *plans };

static const char *const kinds[] = {
    "no hub", "an Event", "a Semaphore", "a Port", "a FIFO", "a Resource", "a Board",
};

static const char *const classes[] = {
    [IS_WAITING] = "waiting",    [IS_MET] = "met",
    [IS_FAILED] = "failed",      [IS_TIMED_OUT] = "timed_out",
    [IS_WITHDRAWN] = "withdrawn",
};

typedef enum { A_CALL, A_MOVE } step_kind;

typedef struct {
    step_kind kind;
    uint32_t call[CALL_NUMBERS]; /* of a call */
    size_t to_words;             /* of a move: the destination's */
    uint32_t refusal;
} step;

typedef struct {
    uint32_t table[WORDS_MOST];
    size_t words; /* of the table: its edition */
    step step[STEPS];
    size_t steps;
    ledger book;
    /* what the record of a request's task showed as its word in the call that
     * settled the request, or shows now */
    uint64_t received[LEDGER_REQUESTS];
    int settled[LEDGER_REQUESTS];
    int moved_up[LEDGER_REQUESTS], moved_down[LEDGER_REQUESTS]; /* while it waited */
    size_t ups, downs, refused_9; /* moves */
    size_t high_refused;          /* requests refused for their high word alone */
} drawn_run;

typedef struct {
    size_t calls, requests;
    size_t refusals[HIGH_WORD + 1], services[ADD_HUB + 1];
    size_t of_class[IS_WITHDRAWN + 1], at_kind[BOARD + 1];
    size_t met_alone, met_pairs, met_more; /* calls that met the caller's request; or one
                                            * waiter's too; or several waiters' */
    size_t ups, downs, refused_9, high_refused, wide_met;
    size_t across[IS_WITHDRAWN + 1]; /* requests that waited through a move, by class */
} figures;

static void stop(uint64_t seed, const char *wrong)
{
    fprintf(stderr, "runs: seed %" PRIu64 ": %s\n", seed, wrong);
    exit(1);
}

/* ---- A run ------------------------------------------------------------- */

static uint32_t kind_of(const drawn_run *run, uint32_t hub)
{
    return run->table[hub_place(run->table, hub) + H_KIND];
}

static int bears_word(uint32_t kind) { return kind == PORT || kind == FIFO || kind == BOARD; }
static int holds_words(uint32_t kind) { return kind == FIFO || kind == BOARD; }

static size_t count_met(const ledger *book)
{
    size_t met = 0;
    for (size_t i = 0; i < book->requests; i++)
        met += book->request[i].class == IS_MET;
    return met;
}

static void read_received(drawn_run *run)
{
    for (size_t i = 0; i < run->book.requests; i++) {
        const ledger_request *request = &run->book.request[i];
        if (!run->settled[i])
            run->received[i] = task_message(run->table, request->task);
        run->settled[i] = request->class != IS_WAITING;
    }
}

static void count_call(figures *all, const uint32_t *call, second_reply reply, size_t met)
{
    all->calls++;
    all->refusals[reply.refusal]++;
    if (reply.refusal == ACCEPTED)
        all->services[call[C_SERVICE]]++;
    all->met_alone += met == 1;
    all->met_pairs += met == 2;
    all->met_more += met > 2;
}

/* The request would be accepted without its high word. */
static int refused_for_high(const drawn_run *run, const uint32_t *call)
{
    uint32_t table[WORDS_MOST], low[CALL_NUMBERS];

    memcpy(table, run->table, sizeof table);
    memcpy(low, call, sizeof low);
    low[C_HIGH] = 0;
    return call[C_HIGH] != 0 && second_call(table, run->words, low).refusal == ACCEPTED;
}

static void begin_book(drawn_run *run)
{
    memset(run->settled, 0, sizeof run->settled);
    memset(run->moved_up, 0, sizeof run->moved_up);
    memset(run->moved_down, 0, sizeof run->moved_down);
}

static const char *take_call(drawn_run *run, const uint32_t *call, figures *all)
{
    uint32_t before[WORDS_MOST];
    const char *wrong;

    memcpy(before, run->table, sizeof before);
    second_reply reply = second_call(run->table, run->words, call);
    int begins = reply.refusal == ACCEPTED && call[C_SERVICE] == BLANK;
    size_t met = begins ? 0 : count_met(&run->book);

    if ((wrong = ledger_enter(&run->book, before, call, reply, run->table)) != NULL)
        return wrong;
    if (begins)
        begin_book(run);
    read_received(run);
    run->high_refused += reply.refusal == BAD_ARGUMENT && refused_for_high(run, call);
    count_call(all, call, reply, count_met(&run->book) - met);
    memcpy(run->step[run->steps].call, call, sizeof run->step->call);
    run->step[run->steps++].refusal = reply.refusal;
    return NULL;
}

static void mark_waiting(drawn_run *run, int *moved)
{
    for (size_t i = 0; i < run->book.requests; i++)
        if (run->book.request[i].class == IS_WAITING)
            moved[i] = 1;
}

/* To the edition that the table isn't of; the run goes on there, if it is done. */
static const char *take_move(drawn_run *run)
{
    int up = run->words == WORDS;
    size_t to_words = up ? WORDS_2 : WORDS;
    uint32_t moved[WORDS_MOST] = {0};
    uint32_t refusal = (up ? second_move_up : second_move_down)(run->table, run->words, moved,
                                                                to_words);
    const char *wrong;

    run->step[run->steps++] = (step){A_MOVE, {0}, to_words, refusal};
    run->refused_9 += refusal == HIGH_WORD;
    if (refusal != ACCEPTED)
        return NULL;
    if ((wrong = ledger_move(&run->book, run->table, moved)) != NULL)
        return wrong;
    mark_waiting(run, up ? run->moved_up : run->moved_down);
    memcpy(run->table, moved, sizeof moved);
    run->words = to_words;
    run->ups += up;
    run->downs += !up;
    return NULL;
}

static void draw_run(drawn_run *run, const plan *by, figures *all)
{
    static const uint32_t blank[CALL_NUMBERS] = {BLANK};
    uint32_t call[CALL_NUMBERS];
    gen_random random;
    gen_mood mood;
    const char *wrong = NULL;
    size_t move = 0;

    memset(run, 0, sizeof *run);
    run->words = WORDS;
    gen_seed(&random, by->seed);
    gen_draw_mood_of(&random, &mood, by->kinds);
    mood.high = by->high[0];
    ledger_begin(&run->book);
    second_call(run->table, run->words, blank);
    for (size_t i = 0; i < by->calls && wrong == NULL; i++) {
        if (move < MOVES && by->move_at[move] != 0 && i == by->move_at[move]) {
            wrong = take_move(run);
            mood.high = by->high[++move];
        }
        gen_call(&random, &mood, run->table, call);
        if (wrong == NULL)
            wrong = take_call(run, call, all);
    }
    if (wrong == NULL)
        wrong = ledger_end(&run->book, run->table);
    if (wrong != NULL)
        stop(by->seed, wrong);
}

/* ---- Figures ----------------------------------------------------------- */

static size_t count_across(const drawn_run *run, const int *moved, ledger_class class)
{
    size_t count = 0;

    for (size_t i = 0; i < run->book.requests; i++)
        count += moved[i] && run->book.request[i].class == class;
    return count;
}

/* Met requests that received a message of more than 32 bits. */
static size_t count_wide(const drawn_run *run)
{
    size_t wide = 0;

    for (size_t i = 0; i < run->book.requests; i++)
        wide += run->book.request[i].class == IS_MET && run->received[i] > UINT32_MAX;
    return wide;
}

/* How many hubs there are at which a request waited while the run moved up. */
static size_t hubs_across(const drawn_run *run)
{
    int seen[HUBS] = {0};
    size_t hubs = 0;

    for (size_t i = 0; i < run->book.requests; i++) {
        int *at = &seen[run->book.request[i].hub];
        hubs += run->moved_up[i] && !*at;
        *at = *at || run->moved_up[i];
    }
    return hubs;
}

/* Of the two runs that move: requests wait at two hubs and more while it moves up, one of
 * them is met afterwards and one times out; a message of 64 bits is met. And of the second:
 * a move down is refused with 9, one is done, and a request waits through that one, too, and
 * is met. */
static int moved_shown(const drawn_run *run, int down)
{
    return run->ups == 1 && hubs_across(run) >= 2 && count_wide(run) > 0 &&
           count_across(run, run->moved_up, IS_MET) > 0 &&
           count_across(run, run->moved_up, IS_TIMED_OUT) > 0 &&
           (!down || (run->refused_9 == 1 && run->downs == 1 &&
                      count_across(run, run->moved_down, IS_MET) > 0));
}

static void count_requests(figures *all, const drawn_run *run)
{
    all->requests += run->book.requests;
    for (size_t i = 0; i < run->book.requests; i++) {
        ledger_class class = run->book.request[i].class;
        all->of_class[class]++;
        all->at_kind[kind_of(run, run->book.request[i].hub)]++;
        all->across[class] += run->moved_up[i] || run->moved_down[i];
    }
    all->ups += run->ups;
    all->downs += run->downs;
    all->refused_9 += run->refused_9;
    all->high_refused += run->high_refused;
    all->wide_met += count_wide(run);
}

static int all_shown(const figures *all)
{
    int shown = all->met_alone > 0 && all->met_pairs > 0 && all->met_more > 0 &&
                all->high_refused > 0;

    for (int class = IS_WAITING; class <= IS_WITHDRAWN; class++)
        shown = shown && all->of_class[class] > 0;
    for (int kind = EVENT; kind <= BOARD; kind++)
        shown = shown && all->at_kind[kind] > 0;
    for (int service = BLANK; service <= ADD_HUB; service++)
        shown = shown && all->services[service] > 0;
    for (int refusal = NO_SUCH_SERVICE; refusal <= BAD_ARGUMENT; refusal++)
        shown = shown && all->refusals[refusal] > 0;
    return shown;
}

static void print_figures(const figures *all)
{
    fprintf(stderr, "%d runs, %zu calls, %zu refused:", RUNS, all->calls,
            all->calls - all->refusals[ACCEPTED]);
    for (int refusal = BAD_LENGTH; refusal <= TABLE_FULL; refusal++)
        if (all->refusals[refusal] > 0)
            fprintf(stderr, " %zu with %d", all->refusals[refusal], refusal);
    fprintf(stderr, "\n%zu requests:", all->requests);
    for (int class = IS_WAITING; class <= IS_WITHDRAWN; class++)
        fprintf(stderr, " %zu %s", all->of_class[class], classes[class]);
    fprintf(stderr, "\nat:");
    for (int kind = EVENT; kind <= BOARD; kind++)
        fprintf(stderr, " %s %zu", kinds[kind], all->at_kind[kind]);
    fprintf(stderr, "\ncalls that met one request %zu, two %zu, more %zu\naccepted, by service:",
            all->met_alone, all->met_pairs, all->met_more);
    for (int service = BLANK; service <= ADD_HUB; service++)
        fprintf(stderr, " %zu", all->services[service]);
    fprintf(stderr, "\nmoves done up %zu, down %zu, refused with 9 %zu; requests that waited "
            "through a move:", all->ups, all->downs, all->refused_9);
    for (int class = IS_WAITING; class <= IS_WITHDRAWN; class++)
        fprintf(stderr, " %zu %s", all->across[class], classes[class]);
    fprintf(stderr, "\nmet with more than 32 bits %zu; refused on edition 1 for a high word %zu\n",
            all->wide_met, all->high_refused);
}

/* ---- The file ---------------------------------------------------------- */

static const char head[] =
    "-- Fourteen runs of the second program's generator, and what its ledger says of each: the definitions agree, by computation.\n"
    "-- Every number here is the second program's: tests/history/runs.c writes the file, tests/history/run compares it.\n"
    "-- `Seen` shows the requests at all hubs, and of hub 0 the words met, the count and the words held. The last two runs move.\n"
    "-- In order: the runs, each with its proof, so that a run that disagrees is named; all of them, and `agree`.\n"
    "use Rattle.history.specs.History.{Step, down, failed, met, timed_out, up, waiting, withdrawn}\n"
    "use Rattle.history.specs.Statements.{Each}\n"
    "use Rattle.runs.specs.Worked.{Seen, call, row, shows}\n"
    "use mathlib.Core.List.{List, [], ◌∷◌}\n"
    "use mathlib.Core.Path.{◌≡◌, refl}\n"
    "\n"
    "-- the calls and moves behind the Blank, and what the ledger says of them\n"
    "pub record Drawn : Type 0 where\n"
    "  pub steps : List Step\n"
    "  pub ledger : Seen\n"
    "\n"
    "abbrev pub Agrees : Drawn → Type 0\n"
    "Agrees d = shows d.steps ≡ d.ledger\n"
    "\n"
    "-- call: service caller target side mode ticks word high; up, down: words of the destination; row: task hub side word class\n"
    "-- received, a word low + 2^32 * high\n";

static void print_step(const step *it)
{
    if (it->kind == A_MOVE)
        printf("%s %zu", it->to_words == WORDS_2 ? "up" : "down", it->to_words);
    else
        printf("call");
    for (int number = 0; it->kind == A_CALL && number < CALL_NUMBERS; number++)
        printf(" %" PRIu32, it->call[number]);
    if (it->refusal != ACCEPTED)
        printf("  -- refused with %" PRIu32, it->refusal);
    printf("\n");
}

static void print_steps(const drawn_run *run)
{
    printf("  steps =\n");
    for (size_t i = 0; i < run->steps; i++) {
        printf("      %s", i > 0 ? "∷ " : "");
        print_step(&run->step[i]);
    }
    printf("      ∷ [];\n");
}

static void print_requests(const drawn_run *run)
{
    printf("    requests =\n");
    for (size_t i = 0; i < run->book.requests; i++) {
        const ledger_request *request = &run->book.request[i];
        int puts_word = request->side == PUT && bears_word(kind_of(run, request->hub));
        printf("        %srow %" PRIu32 " %" PRIu32 " %" PRIu32 " %" PRIu64 " %s %" PRIu64 "\n",
               i > 0 ? "∷ " : "", request->task, request->hub, request->side,
               puts_word ? request->word : 0, classes[request->class], run->received[i]);
    }
    printf("        ∷ [];\n");
}

/* Words that the hub doesn't bear are 0. */
static void print_words(const char *name, const uint64_t *words, uint32_t count, int borne)
{
    printf("    %s = ", name);
    for (uint32_t i = 0; i < count; i++)
        printf("%" PRIu64 " ∷ ", borne ? words[i] : 0);
    printf("[];\n");
}

static void print_run(const drawn_run *run, int number)
{
    const ledger_hub *hub = &run->book.hub[0];
    uint32_t kind = kind_of(run, 0), count = run->table[hub_place(run->table, 0) + H_COUNT];
    uint64_t held[HELD_MOST];

    printf("\n-- hub 0 is %s\nunfoldable pub drawn_%d : Drawn\ndrawn_%d = record {\n", kinds[kind],
           number, number);
    print_steps(run);
    printf("  ledger = record {\n");
    print_requests(run);
    print_words("puts", hub->put, hub->puts, bears_word(kind));
    print_words("gets", hub->got, hub->gets, 1);
    printf("    removed = %" PRIu32 ";\n", hub->owners_removed);
    printf("    count = %" PRIu32 ";\n", count);
    for (uint32_t i = 0; i < HELD_MOST; i++)
        held[i] = message_at(run->table, held_place(run->table, 0, i));
    print_words("held", held, holds_words(kind) ? count : 0, 1);
    printf("  };\n}\n\nagrees_%d : Agrees drawn_%d\nunfolding drawn_%d shows\nagrees_%d = refl\n",
           number, number, number, number);
}

static void print_all(void)
{
    printf("\nunfoldable pub drawn : List Drawn\ndrawn = ");
    for (int number = 1; number <= RUNS; number++)
        printf("drawn_%d ∷ ", number);
    printf("[]\n\npub agree : Each Agrees drawn\nunfolding Each drawn\nagree = ");
    for (int number = 1; number <= RUNS; number++)
        printf("(agrees_%d, ", number);
    printf("tt");
    for (int number = 1; number <= RUNS; number++)
        printf(")");
    printf("\n");
}

int main(void)
{
    static drawn_run run; /* the ledger is too large for some stacks */
    figures all = {0};

    fputs(head, stdout);
    for (int number = 1; number <= RUNS; number++) {
        const plan *by = &plans[number - 1];
        draw_run(&run, by, &all);
        count_requests(&all, &run);
        print_run(&run, number);
        if (by->move_at[0] != 0 && !moved_shown(&run, by->move_at[1] != 0))
            stop(by->seed, "the run doesn't show what one that moves is to show");
    }
    print_all();
    print_figures(&all);
    if (!all_shown(&all)) {
        fprintf(stderr, "runs: the runs don't show everything they are to show\n");
        return 1;
    }
    return fflush(stdout) == 0 && !ferror(stdout) ? 0 : 1;
}
