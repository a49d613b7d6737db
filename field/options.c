/* What sub-commands are asked for. */
#include "options.h"

#include "show.h"
#include "words.h"

#include <getopt.h>
#include <stdio.h>
#include <string.h>

enum { T3206 = 256, T3208, ARFCN, LINK };

/* An option, and the letter by which a sub-command has it. */
static const struct {
    struct option option;
    char letter;
} known[] = {
    { { "help", no_argument, NULL, 'h' }, 0 },
    { { "json", no_argument, NULL, 'j' }, 'j' },
    { { "all", no_argument, NULL, 'a' }, 'a' },
    { { "arfcn", required_argument, NULL, ARFCN }, 'f' },
    { { "t3206", required_argument, NULL, T3206 }, 't' },
    { { "t3208", required_argument, NULL, T3208 }, 't' },
    { { "channel", required_argument, NULL, 'c' }, 'c' },
    { { "link", required_argument, NULL, LINK }, 'l' }
};

enum { KNOWN = sizeof known / sizeof *known };

static int timer(const char *name, const char *word, uint32_t *into)
{
    uint64_t ms;
    if (!decimal(word, ASTERNHAKEN_LONGEST, &ms) || ms == 0) {
        complain("%s is 1 to %d ms, not '%s'", name, ASTERNHAKEN_LONGEST, word);
        return 2;
    }
    *into = (uint32_t)ms;
    return 0;
}

static int one(struct options *options, int letter, const char *word)
{
    uint64_t n;
    switch (letter) {
    case 'j': options->json = 1; return 0;
    case 'a': options->all = 1; return 0;
    case 'c': options->channel = word; return 0;
    case LINK: options->link = word; return 0;
    case T3206: return timer("--t3206", word, &options->timers.t3206);
    case T3208: return timer("--t3208", word, &options->timers.t3208);
    case ARFCN:
        if (decimal(word, 16383, &n)) options->arfcn = (int64_t)n;
        else complain("--arfcn is a number of a channel, not '%s'", word);
        return options->arfcn < 0 ? 2 : 0;
    default: return 2;
    }
}

int options_take(struct options *options, int argc, char **argv, const char *has, const char *help)
{
    struct option list[KNOWN + 1];
    char letters[16] = "h";
    int n = 0, letter;
    optind = 0; /* from the first word on, also where it was called before */
    memset(list, 0, sizeof list);
    memset(options, 0, sizeof *options);
    options->arfcn = -1;
    options->timers = (struct timers){ ASTERNHAKEN_T3206, ASTERNHAKEN_T3208 };
    for (int i = 0; i < KNOWN; i++)
        if (!known[i].letter || strchr(has, known[i].letter)) list[n++] = known[i].option;
    if (strchr(has, 'c')) strcat(letters, "c:");
    if (strchr(has, 'a')) strcat(letters, "a");
    while ((letter = getopt_long(argc, argv, letters, list, NULL)) != -1) {
        if (letter == 'h') {
            fputs(help, stdout);
            return 1;
        }
        if (letter == '?') fprintf(stderr, "%s --help says what there is.\n", argv[0]);
        if (one(options, letter, optarg)) return 2;
    }
    options->words = argv + optind;
    options->n_words = argc - optind;
    return 0;
}

int options_calls(const struct options *options, int from, struct calls *calls)
{
    for (int i = from; i < options->n_words; i++) {
        const char *wrong = calls_add(calls, options->words[i]);
        if (!wrong) continue;
        complain("'%s': %s", options->words[i], wrong);
        return 2;
    }
    return 0;
}
