/* What the program comparer is expected to say, by the second reading of the rows (rows.c) and
 * the second program: first table on standard input, second on descriptor 4; rows and entries
 * to standard output; `R1 R2 R COUNT N1 N2` to descriptor 3. tests/sidebyside/run compares the
 * proved program's output with this one's. */
#define _POSIX_C_SOURCE 200809L

#include <inttypes.h>
#include <stdio.h>
#include <unistd.h>

#include "numbers.h"
#include "rows.h"
#include "second.h"

/* One byte more than a table has tells that there are too many. */
enum { READ_MOST = BYTES_MOST + 1 };

static size_t read_all(int from, uint8_t *bytes)
{
    size_t length = 0;
    ssize_t got;

    while (length < READ_MOST && (got = read(from, bytes + length, READ_MOST - length)) > 0)
        length += (size_t)got;
    return length;
}

/* A table's own refusal: that of its comparison with itself. */
static uint32_t own_refusal(const uint8_t *table, size_t length)
{
    return second_compare_bytes(table, length, table, length, NULL, 0).refusal;
}

int main(void)
{
    static uint8_t first[READ_MOST], second[READ_MOST], text[ROWS_MOST];
    static uint32_t places[ENTRY_WORDS * WORDS_MOST];
    size_t lengths[2] = {read_all(0, first), read_all(4, second)};
    rows_reply rows = rows_write(first, lengths[0], second, lengths[1], text, sizeof text);
    second_compare_reply entries = second_compare_bytes(first, lengths[0], second, lengths[1],
                                                        places, ENTRY_WORDS * WORDS_MOST);

    fwrite(text, 1, rows.length, stdout);
    for (uint32_t i = 0; i < entries.count; i++)
        printf("%" PRIu32 " %" PRIu32 " %" PRIu32 "\n", places[ENTRY_WORDS * i + E_PLACE],
               places[ENTRY_WORDS * i + E_OLD], places[ENTRY_WORDS * i + E_NEW]);
    if (fflush(stdout) != 0 || ferror(stdout))
        return 1;
    dprintf(3, "%" PRIu32 " %" PRIu32 " %" PRIu32 " %" PRIu32 " %zu %zu\n",
            own_refusal(first, lengths[0]), own_refusal(second, lengths[1]), entries.refusal,
            entries.count, lengths[0], lengths[1]);
    return 0;
}
