/* Makes the calls of standard input through the second program, on one array,
 * and prints refusal, answer, next and ahead of each. A line is the number of words
 * that the call is lent, then its eight numbers. */
#include <stdio.h>

#include "second.h"

int main(void)
{
    static uint32_t table[745]; /* one more word than the larger edition has */
    unsigned long words, n[8];

    while (scanf("%lu %lu %lu %lu %lu %lu %lu %lu %lu", &words, &n[0], &n[1], &n[2], &n[3], &n[4],
                 &n[5], &n[6], &n[7]) == 9) {
        uint32_t call[8];
        for (int i = 0; i < 8; i++)
            call[i] = (uint32_t)n[i];
        second_reply reply = second_call(table, words, call);
        printf("%lu %lu %lu %lu\n", (unsigned long)reply.refusal, (unsigned long)reply.answer,
               (unsigned long)reply.next, (unsigned long)reply.ahead);
    }
    return 0;
}
