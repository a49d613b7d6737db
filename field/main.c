/* asternhaken: one command for field staff, over the library. Here a sub-command is found and called. */
#include "commands.h"
#include "show.h"

#include <asternhaken.h>
#include <stdio.h>
#include <string.h>

static const struct {
    const char *name, *title, *line;
    int (*command)(int argc, char **argv);
} commands[] = {
    { "watch", "asternhaken watch", "FILE [CALL..]      what a receiver says to a capture, and a list of the calls", command_watch },
    { "why", "asternhaken why", "FILE [CALL..]        why a call did not show: what was seen, what was missing, what would help", command_why },
    { "decode", "asternhaken decode", "HEX               every field of a message, up to the one that is refused", command_decode },
    { "import", "asternhaken import", "FILE CALL..       a capture as a recorded day, for replay and mend", command_import },
    { "replay", "asternhaken replay", "[FILE]            each answer to a recorded day", command_replay },
    { "mend", "asternhaken mend", "[FILE]              a recorded day without what replay refuses", command_mend },
    { "cell", "asternhaken cell", "SCRIPT              a capture of a simulated cell, for tests and trials", command_cell }
};

enum { COMMANDS = sizeof commands / sizeof *commands };

static void print_help(void)
{
    printf("asternhaken: notifications of group calls (VGCS) and broadcast calls (VBS) in captures of a GSM cell\n\n");
    for (int i = 0; i < COMMANDS; i++) printf("  asternhaken %s %s\n", commands[i].name, commands[i].line);
    printf("\nFILE is a pcap or pcapng file with GSMTAP, - standard input. CALL is 4711/VBS, 4711/VGCS, or 4711 for both.\n"
           "asternhaken COMMAND --help says more of each, man asternhaken all of it. Status: 0 done, 1 something refused or nothing found, 2 wrong words or file.\n");
}

static int one_of(const char *word, const char *one, const char *other)
{
    return !strcmp(word, one) || !strcmp(word, other);
}

int main(int argc, char **argv)
{
    if (argc < 2) {
        complain("which command? asternhaken --help lists them");
        return 2;
    }
    if (one_of(argv[1], "--help", "-h") || !strcmp(argv[1], "help")) {
        print_help();
        return finish_output();
    }
    if (one_of(argv[1], "--version", "-V")) {
        printf("asternhaken %s\n", ASTERNHAKEN_VERSION);
        return finish_output();
    }
    for (int i = 0; i < COMMANDS; i++) {
        if (strcmp(argv[1], commands[i].name)) continue;
        argv[1] = (char *)(uintptr_t)commands[i].title; /* by which its options are complained of; it is not written to */
        return commands[i].command(argc - 1, argv + 1);
    }
    complain("'%s' is no command; asternhaken --help lists them", argv[1]);
    return 2;
}
