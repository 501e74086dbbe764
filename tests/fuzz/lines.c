/* libFuzzer's target for the drill runner: the second program's, whole, over
 * any bytes. What it keeps as new ground is run through ./drill and compared
 * line by line (run). */
#include "runner.h"

int LLVMFuzzerTestOneInput(const uint8_t *data, size_t size);

int LLVMFuzzerTestOneInput(const uint8_t *data, size_t size)
{
    runner run;

    runner_begin(&run, stdout);
    runner_feed(&run, data, size);
    runner_end(&run);
    return 0;
}
