/* asternhaken watch: a capture to answers, a line for each entry, and a list of calls at the end. */
#include "watch.h"

#include "answers.h"
#include "commands.h"
#include "names.h"
#include "show.h"

#include <inttypes.h>
#include <signal.h>
#include <stdio.h>
#include <stdlib.h>
#include <string.h>

static const char help[] =
    "asternhaken watch [--all] [--arfcn N] [--t3206 MS] [--t3208 MS] [--json] FILE|- [CALL..]\n"
    "\n"
    "Gives the notifications of a capture to a receiver for each ARFCN, shows what each entry of the calls is told, and at the end a list of the calls.\n"
    "CALL is 4711/VBS, 4711/VGCS or 4711 for both; yard=4711/VBS:3,4 gives it a name and the group keys that are held. Without a CALL all that the file names are\n"
    "followed. Times are seconds from the first frame on.\n"
    "\n"
    "  -a, --all         entries of other calls too\n"
    "      --arfcn N     the cell on this ARFCN alone\n"
    "      --t3206 MS    how long a half on the NCH is kept (10000)\n"
    "      --t3208 MS    the same on the FACCH (5000)\n"
    "      --json        an object on each line\n"
    "\n"
    "Status: 0 done, 1 something was refused, damaged or nothing was found, 2 the file or the words are wrong.\n";

/* What was seen of a call. */
struct seen {
    uint64_t entries, complete, told_ms, told_frame;
    struct cell *cell;
    struct asternhaken_entry last; /* the complete one */
};

struct watch {
    struct options options;
    struct calls calls;
    struct cells cells;
    struct capture capture;
    struct seen seen[ASTERNHAKEN_KEYS];
    uint64_t refused, entries, others;
};

static void note(struct watch *watch, const struct heard *heard, const struct asternhaken_entry *entry)
{
    struct seen *seen = &watch->seen[calls_find(&watch->calls, entry->key)];
    watch->entries++;
    seen->entries++;
    if (entry->told < ASTERNHAKEN_TOLD_CLEAR || entry->told > ASTERNHAKEN_TOLD_JOINED) return;
    seen->complete++;
    seen->told_ms = heard->capture->ms;
    seen->told_frame = heard->capture->count;
    seen->cell = heard->cell;
    seen->last = *entry;
}

/* What the receiver says to an accepted message. */
static void answered(struct watch *watch, const struct heard *heard)
{
    const uint8_t *state = heard->cell->state;
    struct asternhaken_answer answer;
    struct asternhaken_paged paged;
    struct asternhaken_entry entry;
    asternhaken_answer_get(state, ASTERNHAKEN_STATE_LENGTH, &answer);
    answer.expired += heard->cell->ran_out;
    if (answer.expired || answer.dropped) show_lost(heard, answer.expired, answer.dropped);
    if (heard->frame->kind == KIND_FACCH) {
        asternhaken_paged_get(state, ASTERNHAKEN_STATE_LENGTH, &paged);
        if (paged.paged) show_page(heard, &paged);
    }
    for (uint32_t i = 0; i < answer.entry_count; i++) {
        asternhaken_entry_get(state, ASTERNHAKEN_STATE_LENGTH, i, &entry);
        if (entry.told == ASTERNHAKEN_TOLD_NOT_OURS) watch->others++;
        else note(watch, heard, &entry);
        if (entry.told != ASTERNHAKEN_TOLD_NOT_OURS || watch->options.all) show_entry(heard, &entry);
    }
}

static int follow(struct watch *watch)
{
    struct frame frame;
    while (capture_next(&watch->capture, &frame)) {
        if (!is_asked_for(&watch->options, &frame)) continue;
        struct heard heard = { &watch->capture, &frame, cells_of(&watch->cells, &frame, watch->capture.ms), &watch->calls, watch->options.json };
        if (!heard.cell) {
            complain("there is no memory left for a receiver more");
            return 2;
        }
        uint32_t result = cell_feed(heard.cell, &frame, watch->capture.ms);
        if (ASTERNHAKEN_REFUSAL(result)) {
            watch->refused++;
            show_refusal(&heard, result);
        } else answered(watch, &heard);
    }
    return 0;
}

/* ---- The list ---- */

static void list_json(const struct watch *watch, size_t i)
{
    const struct seen *seen = &watch->seen[i];
    uint32_t key = watch->calls.keys[i];
    json_open();
    json_text("type", "call");
    json_number("key", key);
    json_number("call_reference", key / 2);
    json_text("service", key % 2 ? "VGCS" : "VBS");
    if (*watch->calls.call[i].name) json_text("name", watch->calls.call[i].name);
    json_number("entries", seen->entries);
    json_number("complete", seen->complete);
    if (seen->complete) {
        json_number("gsmtap.arfcn", seen->cell->arfcn);
        json_number("frame.number", seen->told_frame);
        json_text("frame.time_relative", seconds(seen->told_ms));
        json_record(&seen->last);
    }
    json_close();
}

static void list_line(const struct watch *watch, size_t i)
{
    const struct seen *seen = &watch->seen[i];
    printf("  %-22s ", seen->entries ? call_title(&watch->calls, watch->calls.keys[i]) : call_asked(&watch->calls, i));
    if (!seen->entries) printf("not named in the capture\n");
    else if (!seen->complete) printf("%snever complete%s, %s: asternhaken why says more\n", bad(), plain(), many(seen->entries, "entry", "entries"));
    else {
        printf("%scomplete%s %s, last at %s on %s: ", good(), plain(), many(seen->complete, "time", "times"), seconds(seen->told_ms), cell_name(seen->cell));
        print_record(&seen->last);
        printf("\n");
    }
}

static void list(const struct watch *watch)
{
    if (!watch->options.json) printf("\nCalls\n");
    for (size_t i = 0; i < watch->calls.count; i++) {
        size_t other = calls_find(&watch->calls, watch->calls.keys[i] ^ 1);
        if (is_passed_over(&watch->calls, i, watch->seen[i].entries > 0, other < watch->calls.count && watch->seen[other].entries)) continue;
        if (watch->options.json) list_json(watch, i);
        else list_line(watch, i);
    }
    if (!watch->options.json && !watch->calls.count) printf("  none is named in the capture\n");
    if (!watch->options.json && watch->others && !watch->options.all) printf("  %s of other calls not shown (--all shows them)\n", many(watch->others, "entry", "entries"));
}

/* ---- The command ---- */

/* The first interrupt ends what feeds a pipe, and then the list is shown; the second ends this. */
static void interrupted(int number)
{
    signal(number, SIG_DFL);
}

static int begin(struct watch *watch, int argc, char **argv)
{
    int status = options_take(&watch->options, argc, argv, "jaft", help);
    if (status) return status;
    if (!watch->options.n_words) {
        complain("watch which file? asternhaken watch --help says more");
        return 2;
    }
    if (calls_or_all(&watch->options, &watch->calls) || capture_open(&watch->capture, watch->options.words[0])) return 2;
    watch->cells.calls = &watch->calls;
    watch->cells.timers = watch->options.timers;
    if (!strcmp(watch->options.words[0], "-")) {
        setvbuf(stdout, NULL, _IOLBF, BUFSIZ); /* a capture may still be under way */
        signal(SIGINT, interrupted);
    }
    return 0;
}

int command_watch(int argc, char **argv)
{
    struct watch *watch = calloc(1, sizeof *watch);
    if (!watch) return 2;
    int status = begin(watch, argc, argv);
    if (status) {
        free(watch);
        return status == 1 ? 0 : 2;
    }
    if (!watch->options.json) show_heading();
    status = follow(watch);
    list(watch);
    if (!watch->options.json) printf("\n");
    show_capture(&watch->capture, &watch->calls, watch->options.json);
    if (!status && (watch->refused || *watch->capture.damage || !watch->entries)) status = 1;
    capture_close(&watch->capture);
    cells_free(&watch->cells);
    free(watch);
    return finish_output() ? 2 : status;
}
