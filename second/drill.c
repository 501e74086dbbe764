/* The drill runner: lines from standard input to its end, one line out for
 * each line in. Reads and writes in blocks, so input of any length streams. */
#include <stdio.h>

#include "runner.h"

enum { BLOCK = 1 << 16 };

int main(void)
{
    static runner run;
    static uint8_t block[BLOCK];
    static char out[BLOCK]; /* static: the stream may use it until the program has ended */
    size_t length;

    setvbuf(stdout, out, _IOFBF, sizeof out);
    runner_begin(&run, stdout);
    while ((length = fread(block, 1, sizeof block, stdin)) > 0)
        runner_feed(&run, block, length);
    runner_end(&run);
    if (ferror(stdin) || fflush(stdout) != 0 || ferror(stdout)) {
        fputs("drill: input or output failed\n", stderr);
        return 1;
    }
    return 0;
}
