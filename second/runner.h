/* The drill runner without its input: lines in as bytes, in blocks of any size,
 * and one line out for each. drill.c is the program; the tests look at the table
 * that the lines built. */
#ifndef RUNNER_H
#define RUNNER_H

#include <stddef.h>
#include <stdint.h>
#include <stdio.h>

#include "numbers.h"

typedef struct {
    uint32_t table[RUNNER_WORDS];
    uint64_t number;                 /* lines ended so far */
    size_t length;                   /* of the line being read, at most one too many */
    uint8_t line[LINE_MAX_BYTES + 1];
    FILE *out;
} runner;

/* A table of zeros, and no line yet. */
void runner_begin(runner *run, FILE *out);

void runner_feed(runner *run, const uint8_t *block, size_t length);

/* No more bytes come: the last newline may be missing. */
void runner_end(runner *run);

#endif
