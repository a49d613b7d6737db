/* A harness for libFuzzer: octets as a capture, through watch, why and import. tests/field.sh builds target/field/fuzz and runs it on its seeds; for more, by hand:
 *
 *     mkdir -p target/field/found && nice target/field/fuzz -max_total_time=600 target/field/found tests/field/seeds */
#include "../../field/commands.h"

#include <stdint.h>
#include <stdio.h>
#include <stdlib.h>
#include <sys/mman.h>
#include <unistd.h>

int LLVMFuzzerTestOneInput(const uint8_t *octets, size_t count);

/* The command's own output goes nowhere. */
static int prepare(char path[64])
{
    int file = memfd_create("capture", 0);
    if (file < 0 || !freopen("/dev/null", "w", stdout)) abort();
    stderr = fopen("/dev/null", "w"); /* the descriptor behind it stays open, and libFuzzer and the sanitizers write there */
    snprintf(path, 64, "/proc/self/fd/%d", file);
    return file;
}

static void run(int (*command)(int argc, char **argv), char **words, int n)
{
    char *copy[8] = { 0 };
    for (int i = 0; i < n; i++) copy[i] = words[i];
    int status = command(n, copy);
    if (status < 0 || status > 2) abort();
}

int LLVMFuzzerTestOneInput(const uint8_t *octets, size_t count)
{
    static char path[64];
    static int file = -1;
    if (file < 0) file = prepare(path);
    if (ftruncate(file, 0) || pwrite(file, octets, count, 0) != (ssize_t)count) abort();
    char *watched[] = { "watch", "--all", path, "4711:3", "66428757" }, *asked[] = { "why", path }, *taken[] = { "import", path, "4711" };
    run(command_watch, watched, 5);
    run(command_why, asked, 2);
    run(command_import, taken, 3);
    return 0;
}
