/* Demand 3, read from the calls and the tables around them only. The ledger
 * enters every accepted hub request since the last accepted Blank, and after
 * each call tells each request's class from the records before and after it.
 * It asks no kernel for a total; what it counts, it counts itself. */
#ifndef LEDGER_H
#define LEDGER_H

#include <stddef.h>
#include <stdint.h>

#include "second.h"

enum { LEDGER_REQUESTS = 4096 };

typedef enum { IS_WAITING, IS_MET, IS_FAILED, IS_TIMED_OUT, IS_WITHDRAWN } ledger_class;

typedef struct {
    ledger_class class;
    uint32_t task, hub, side;
    uint64_t word;  /* low + 2^32 * high (M-105) */
    uint32_t ticks; /* of the call; 0 without limit */
    uint32_t age;   /* accepted Ticks since */
} ledger_request;

/* The words of one hub's met requests, in order of meeting. At a Resource a put
 * unlocks, a get locks, and Stop may take the owner away (M-101). At a Board a put
 * updates and a get reads; what it shows comes from the calls alone: the word of the
 * last accepted update, unless a wipe came after it (M-103). At a Memory a get takes a
 * block, whose number it receives, and a put brings one back (M-107). */
typedef struct {
    uint32_t puts, gets, wipes, owners_removed;
    uint32_t out[8]; /* at a Memory: met gets that received the block less met puts of it */
    int written;
    uint64_t shown; /* while written */
    uint64_t put[LEDGER_REQUESTS], got[LEDGER_REQUESTS];
} ledger_hub;

typedef struct {
    size_t requests;
    ledger_request request[LEDGER_REQUESTS];
    ledger_request *open[16]; /* the task's waiting request, or none */
    ledger_hub hub[16];
} ledger;

/* An accepted Blank begins a new run. */
void ledger_begin(ledger *book);

/* Enters one call; at most LEDGER_REQUESTS requests between two Blanks. Gives
 * what is wrong, in words, or NULL. The tables are of one edition. */
const char *ledger_enter(ledger *book, const uint32_t *before, const uint32_t call[8],
                         second_reply reply, const uint32_t *after);

/* Enters an accepted move: the run goes on in the new table (M-105). */
const char *ledger_move(const ledger *book, const uint32_t *before, const uint32_t *after);

/* M-108's two sentences for users, of a table after an accepted call: who runs has the least
 * effective priority among the ready tasks that aren't suspended; and no such task that is
 * less urgent than a waiter stands before the ready owner of the lock that it waits for.
 * Gives what is wrong, or NULL. ledger_enter asks it, too. */
const char *ledger_urgency(const uint32_t *table, uint32_t next);

/* Adds everything up again from the requests alone. */
const char *ledger_end(const ledger *book, const uint32_t *table);

#endif
