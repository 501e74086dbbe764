/* An edition 2 table on standard input, moved down by the second program: the edition 1 table
 * on standard output. Status 1 and no output where the move is refused. */
#include <stdio.h>

#include "numbers.h"
#include "second.h"

int main(void)
{
    uint8_t from[BYTES_2 + 1], to[BYTES];
    size_t length = fread(from, 1, sizeof from, stdin);

    if (second_move_down_bytes(from, length, to, sizeof to) != ACCEPTED)
        return 1;
    return fwrite(to, 1, sizeof to, stdout) == sizeof to && fflush(stdout) == 0 ? 0 : 1;
}
