/* Runs two commands on one input, turn by turn, and prints lines per second
 * of processor time for the best turn of each, and the ratio of the times.
 * Status 3: the first took more than 2.0 times the second's time.
 * usage: race LINES TURNS INPUT FIRST SECOND */
#include <fcntl.h>
#include <stdio.h>
#include <stdlib.h>
#include <sys/resource.h>
#include <sys/wait.h>
#include <unistd.h>

static double seconds(struct timeval t) { return (double)t.tv_sec + (double)t.tv_usec / 1e6; }

static void onto(const char *path, int flags, int descriptor)
{
    int opened = open(path, flags);

    if (opened < 0 || dup2(opened, descriptor) < 0)
        _exit(126);
    close(opened);
}

/* One run with nothing kept of its output: the processor time it took. */
static double run(const char *input, const char *command)
{
    struct rusage used;
    int status;
    pid_t child = fork();

    if (child == 0) {
        onto(input, O_RDONLY, STDIN_FILENO);
        onto("/dev/null", O_WRONLY, STDOUT_FILENO);
        execl(command, command, (char *)NULL);
        _exit(127);
    }
    if (child < 0 || wait4(child, &status, 0, &used) < 0 || status != 0) {
        fprintf(stderr, "race: %s failed\n", command);
        exit(1);
    }
    return seconds(used.ru_utime) + seconds(used.ru_stime);
}

int main(int words, char **word)
{
    double best[2] = {1e9, 1e9};

    if (words != 6) {
        fputs("usage: race LINES TURNS INPUT FIRST SECOND\n", stderr);
        return 2;
    }
    double lines = atof(word[1]);
    for (int turn = 0; turn < atoi(word[2]); turn++)
        for (int i = 0; i < 2; i++) {
            double took = run(word[3], word[4 + i]);
            if (took < best[i])
                best[i] = took;
        }
    printf("%.0f %.0f %.2f\n", lines / best[0], lines / best[1], best[0] / best[1]);
    return best[0] <= 2.0 * best[1] ? 0 : 3;
}
