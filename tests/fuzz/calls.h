/* A fuzzer's input as steps on one table, which begins as Blank leaves 600 words, so of
 * edition 1. Nine bytes a step, what is left at the end is dropped:
 *   first byte below 128   a call: service, caller, target, side, mode, ticks,
 *                          two bytes of the word, low byte first, and the high word
 *   below 160              a move to the other edition; the steps go on there if it is done
 *   below 176              the table kept last (at first all zeros, of edition 1) is compared
 *                          with this one, which is then kept: two bytes of the buffer's words
 *   above                  a word of the table is overwritten: two bytes of
 *                          its place, four of its value, low bytes first
 * The numbers of a call are small ones, and the papers' edges. */
#ifndef FUZZ_CALLS_H
#define FUZZ_CALLS_H

#include <stddef.h>
#include <stdint.h>

#include "numbers.h"

enum { STEP = 9, CALL_BELOW = 128, MOVE_BELOW = 160, COMPARE_BELOW = 176 };
enum { PLACES_WORDS = ENTRY_WORDS * WORDS_MOST, BEHIND = 8 }; /* a buffer, and what is watched */

typedef enum { FUZZ_CALL, FUZZ_MOVE, FUZZ_COMPARE, FUZZ_POKE } fuzz_kind;

typedef struct {
    fuzz_kind kind;
    uint32_t call[CALL_NUMBERS];
    uint32_t place, value; /* the place is to be taken below the table's words */
    size_t room;           /* of a comparison, in words: at most PLACES_WORDS */
} fuzz_step;

static const uint32_t fuzz_blank[CALL_NUMBERS] = {0};

/* 0 to 247 as they are, then the numbers at which a rule turns */
static uint32_t fuzz_number(uint8_t byte)
{
    static const uint32_t edges[] = {255, 256, 65535, 65536, 1000000, 1000001, 4294967294u, 4294967295u};

    return byte < 248 ? byte : edges[byte - 248];
}

static fuzz_step fuzz_step_of(const uint8_t *at)
{
    fuzz_step step = {FUZZ_POKE, {0}, 0, 0, 0};

    if (at[0] < CALL_BELOW) {
        step.kind = FUZZ_CALL;
        step.call[0] = at[0] % 12;
        for (int i = 1; i < C_WORD; i++)
            step.call[i] = fuzz_number(at[i]);
        step.call[C_WORD] = fuzz_number(at[6]) + 256u * at[7];
        step.call[C_HIGH] = fuzz_number(at[8]);
    } else if (at[0] < MOVE_BELOW) {
        step.kind = FUZZ_MOVE;
    } else if (at[0] < COMPARE_BELOW) {
        step.kind = FUZZ_COMPARE;
        step.room = (at[1] + 256u * at[2]) % (PLACES_WORDS + 1);
    } else {
        step.place = at[1] + 256u * at[2];
        step.value = at[3] + 256u * at[4] + 65536u * at[5] + 16777216u * at[6];
    }
    return step;
}

#endif
