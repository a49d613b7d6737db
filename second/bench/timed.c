/* Runs programs by turns on one input, their output thrown away: timed RUNS INPUT PROGRAM.. A PROGRAM may have words behind it, parted by blanks. For each a line: the least
 * processor time in seconds, its own and the system's for it, which a busy machine changes least; the most memory that it had in KB; its name. A program that does not end with status
 * 0 ends this one too. */
#define _DEFAULT_SOURCE
#include <fcntl.h>
#include <stdio.h>
#include <stdlib.h>
#include <string.h>
#include <sys/resource.h>
#include <sys/wait.h>
#include <unistd.h>

enum { MOST = 8, WORDS = 16 };

static double seconds(struct timeval t)
{
    return (double)t.tv_sec + (double)t.tv_usec / 1e6;
}

static void become(const char *input, const char *program)
{
    char *words[WORDS + 1] = { 0 }, *line = strdup(program);
    unsigned n = 0;
    for (char *word = strtok(line, " "); word && n < WORDS; word = strtok(NULL, " "))
        words[n++] = word;
    int from = open(input, O_RDONLY), to = open("/dev/null", O_WRONLY);
    if (from < 0 || to < 0 || dup2(from, 0) < 0 || dup2(to, 1) < 0 || dup2(to, 2) < 0)
        _exit(126);
    close(from);
    close(to);
    execvp(words[0], words);
    _exit(127);
}

int main(int argc, char **argv)
{
    int runs = argc > 3 ? atoi(argv[1]) : 0, n = argc - 3;
    double best[MOST] = { 0 };
    long peak[MOST] = { 0 };
    if (runs < 1 || n > MOST) {
        fprintf(stderr, "usage: timed RUNS INPUT PROGRAM..\n");
        return 2;
    }
    for (int run = 0; run < runs; run++) {
        for (int i = 0; i < n; i++) {
            struct rusage usage;
            int status;
            pid_t child = fork();
            if (child == 0)
                become(argv[2], argv[3 + i]);
            if (child < 0 || wait4(child, &status, 0, &usage) != child || status != 0) {
                fprintf(stderr, "timed: %s does not end well\n", argv[3 + i]);
                return 1;
            }
            double took = seconds(usage.ru_utime) + seconds(usage.ru_stime);
            if (run == 0 || took < best[i])
                best[i] = took;
            if (usage.ru_maxrss > peak[i])
                peak[i] = usage.ru_maxrss;
        }
    }
    for (int i = 0; i < n; i++)
        printf("%.6f %ld %s\n", best[i], peak[i], argv[3 + i]);
    return 0;
}
