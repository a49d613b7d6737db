/* asternhaken replay and mend: the proved programs of the library, called as they are. */
#include "commands.h"
#include "options.h"
#include "show.h"

#include <errno.h>
#include <fcntl.h>
#include <limits.h>
#include <stdio.h>
#include <stdlib.h>
#include <string.h>
#include <unistd.h>

static const char replay_help[] =
    "asternhaken replay [FILE] < day.cap\n"
    "\n"
    "Gives a recorded day (asternhaken import writes one) to the receiver, field by field, and prints each answer: a line for each field with its number, tag, refusal and\n"
    "halves dropped, and under it a line for each entry with its key, twice the reference and 1 more for VGCS, and the number told. docs/CAPTURE.md has the numbers.\n";

static const char mend_help[] =
    "asternhaken mend [FILE] < day.cap > mended.cap\n"
    "\n"
    "Copies a recorded day without the fields that replay refuses, a torn end among them, and lists these on standard error: number, octet offset and refusal.\n";

/* The folder of the programs: ASTERNHAKEN_PROGRAMS, or libexec/asternhaken beside the folder that this command is in. */
static int path_of(const char *name, char path[PATH_MAX])
{
    char own[PATH_MAX];
    const char *folder = getenv("ASTERNHAKEN_PROGRAMS");
    if (folder && *folder) return snprintf(path, PATH_MAX, "%s/%s", folder, name) < PATH_MAX;
    ssize_t n = readlink("/proc/self/exe", own, sizeof own - 1);
    if (n <= 0) return 0;
    own[n] = 0;
    for (int i = 0; i < 2; i++) {
        char *slash = strrchr(own, '/');
        if (!slash) return 0;
        *slash = 0;
    }
    return snprintf(path, PATH_MAX, "%s/libexec/asternhaken/%s", own, name) < PATH_MAX;
}

/* The file in the place of standard input. */
static int read_from(const char *name)
{
    int file = open(name, O_RDONLY);
    if (file >= 0 && dup2(file, STDIN_FILENO) >= 0) {
        close(file);
        return 0;
    }
    complain("%s: %s", name, strerror(errno));
    return 2;
}

static int call(const char *name, int argc, char **argv, const char *help)
{
    char path[PATH_MAX] = "";
    struct options options;
    int status = options_take(&options, argc, argv, "", help);
    if (status) return status == 1 ? 0 : 2;
    if (options.n_words > 1) {
        complain("%s takes one file, or standard input", name);
        return 2;
    }
    if (options.n_words == 1 && strcmp(options.words[0], "-") && read_from(options.words[0])) return 2;
    if (path_of(name, path)) execl(path, name, (char *)NULL);
    complain("the program %s cannot be run: %s: %s", name, path, strerror(errno));
    return 2;
}

int command_replay(int argc, char **argv)
{
    return call("replay", argc, argv, replay_help);
}

int command_mend(int argc, char **argv)
{
    return call("mend", argc, argv, mend_help);
}
