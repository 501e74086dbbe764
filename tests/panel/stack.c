/* How much stack the C functions use: each runs on a painted stack of its own, and what is no longer paint was used. Most is used
 * where sixteen tasks wait for each other, so the tables are chains and rings of locks, on both editions. Fails above what the
 * header says. */
#include <stdio.h>
#include <string.h>
#include <ucontext.h>

#include "gen.h"
#include "hub_kernel.h"
#include "numbers.h"

enum { STACK = 32768, PAINT = 0xA5, TABLES = 5000, CALL_MOST = 7000, MOVE_MOST = 10000 };

static uint8_t stack[STACK] __attribute__((aligned(16)));
static ucontext_t here, there;

/* what the work below is done on */
static uint8_t table[BYTES_MOST], other[BYTES_MOST];
static uint32_t call[8], edition, places[3 * WORDS_MOST];
static uint8_t text[16384];

static size_t length(uint32_t of) { return 4 * (size_t)layouts[of - 1].words; }

static void one_call(void)
{
    hub_kernel_call(table, length(edition), call[0], call[1], call[2], call[3], call[4], call[5],
                    call[6], call[7]);
}

static void one_summary(void) { hub_kernel_summary(table, length(edition), 0); }

static void one_listing(void) { hub_kernel_listing(table, length(edition), text, sizeof text); }

static void one_move(void)
{
    if (edition == EDITION_1)
        hub_kernel_move_up(table, length(EDITION_1), other, length(EDITION_2));
    else
        hub_kernel_move_down(table, length(EDITION_2), other, length(EDITION_1));
}

static void one_comparison(void)
{
    hub_kernel_compare(table, length(edition), table, length(edition), places, 3 * WORDS_MOST);
}

static size_t used_by(void (*work)(void))
{
    size_t clean = 0;

    memset(stack, PAINT, sizeof stack);
    getcontext(&there);
    there.uc_stack.ss_sp = stack;
    there.uc_stack.ss_size = sizeof stack;
    there.uc_link = &here;
    makecontext(&there, work, 0);
    swapcontext(&here, &there);
    while (clean < sizeof stack && stack[clean] == PAINT)
        clean++;
    return sizeof stack - clean;
}

static void keep_most(size_t *most, void (*work)(void))
{
    size_t used = used_by(work);

    *most = used > *most ? used : *most;
}

int main(void)
{
    size_t call_most = 0, move_most = 0;
    gen_random random;

    gen_seed(&random, 108);
    for (int i = 0; i < 2 * TABLES; i++) {
        uint32_t words[WORDS_MOST];

        edition = i % 2 == 0 ? EDITION_1 : EDITION_2;
        gen_chain(&random, edition, words, call);
        for (size_t k = 0; k < length(edition); k++)
            table[k] = (uint8_t)(words[k / 4] >> k % 4 * 8);
        keep_most(&move_most, one_move);
        keep_most(&move_most, one_comparison);
        keep_most(&call_most, one_summary);
        keep_most(&call_most, one_listing);
        keep_most(&call_most, one_call);
    }
    printf("stack: %zu bytes, by a move or a comparison %zu (the header says %d and %d)\n", call_most,
           move_most, (int)CALL_MOST, (int)MOVE_MOST);
    return call_most <= CALL_MOST && move_most <= MOVE_MOST ? 0 : 1;
}
