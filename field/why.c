/* asternhaken why: for each call, whether it showed, and if not, what was seen, what was missing and what would help. */
#include "answers.h"
#include "commands.h"
#include "show.h"
#include "trace.h"
#include "verdict.h"
#include "watch.h"

#include <stdio.h>
#include <stdlib.h>
#include <string.h>

static const char help[] =
    "asternhaken why [--arfcn N] [--t3206 MS] [--t3208 MS] [--json] FILE|- [CALL..]\n"
    "\n"
    "Says for each call whether it showed in a capture: what was seen of it, what was missing, and what would help. Where the halves of a notification came too far\n"
    "apart, the shortest timer that joins them is tried out and shown.\n"
    "CALL is 4711/VBS, 4711/VGCS or 4711 for both; 4711/VBS:3,4 with the group keys that are held. Without a CALL all that the file names.\n"
    "\n"
    "      --arfcn N     the cell on this ARFCN alone\n"
    "      --t3206 MS    how long a half on the NCH is kept (10000)\n"
    "      --t3208 MS    the same on the FACCH (5000)\n"
    "      --json        an object for each call\n"
    "\n"
    "Status: 0 each call showed, 1 one did not or the file is damaged, 2 the file or the words are wrong.\n";

/* ---- Gathering ---- */

/* The calls that a refused message names before the place where it is refused. */
static void take_refused(struct evidence *evidence, const struct frame *frame)
{
    struct field fields[ASTERNHAKEN_FIELDS];
    uint32_t count, result = trace_message(frame->kind == KIND_FACCH, frame->message, frame->length, fields, &count);
    evidence->refused++;
    for (uint32_t i = 0; i + 1 < count; i++) {
        if (fields[i].kind != ASTERNHAKEN_FIELD_CALL_REFERENCE && fields[i].kind != ASTERNHAKEN_FIELD_REDUCED_REFERENCE) continue;
        size_t call = calls_find(&evidence->calls, fields[i].value * 2 + fields[i + 1].value); /* the service flag stands behind the reference */
        if (call == ASTERNHAKEN_KEYS) continue;
        if (!evidence->refused_with[call].count++) evidence->refused_with[call].frame = evidence->capture.count, evidence->refused_with[call].result = result;
    }
}

/* Answers whether the message names one of the calls; -1 where there is no memory left. */
static int take_entries(struct evidence *evidence, struct cell *cell, const struct frame *frame)
{
    struct asternhaken_answer answer;
    struct asternhaken_entry entry;
    int is_ours = 0;
    asternhaken_answer_get(cell->state, sizeof cell->state, &answer);
    for (uint32_t i = 0; i < answer.entry_count; i++) {
        asternhaken_entry_get(cell->state, sizeof cell->state, i, &entry);
        name_call(evidence, (uint32_t)entry.key);
        is_ours |= entry.told != ASTERNHAKEN_TOLD_NOT_OURS;
        if (!account_take(&evidence->accounts, &evidence->calls, cell, &evidence->capture, frame, i)) return -1;
    }
    return is_ours;
}

static int take(struct evidence *evidence, const struct frame *frame)
{
    struct cell *cell = cells_of(&evidence->cells, frame, evidence->capture.ms);
    if (!cell) return 0;
    evidence->messages++;
    uint32_t result = cell_feed(cell, frame, evidence->capture.ms);
    if (ASTERNHAKEN_REFUSAL(result)) {
        take_refused(evidence, frame);
        return 1;
    }
    int is_new = cell_nln(cell, frame);
    account_lost(&evidence->accounts, &evidence->calls, cell, &evidence->capture, &evidence->timers);
    int is_ours = take_entries(evidence, cell, frame);
    if (is_ours < 0) return 0;
    return (!is_new && !is_ours) || log_add(&evidence->log, cell, &evidence->capture, frame);
}

/* ---- Showing ---- */

static void print_sentences(const char *word, const struct sentences *sentences)
{
    for (size_t i = 0; i < sentences->count; i++) printf("  %s%-8s%s %s\n", dim(), i ? "" : word, plain(), sentences->line[i]);
}

static void json_sentences(const char *key, const struct sentences *sentences)
{
    json_list(key);
    for (size_t i = 0; i < sentences->count; i++) json_word(sentences->line[i]);
    json_list_end();
}

static void show_json(const struct evidence *evidence, size_t call, const struct verdict *verdict)
{
    uint32_t key = evidence->calls.keys[call];
    json_open();
    json_text("type", "why");
    json_number("key", key);
    json_number("call_reference", key / 2);
    json_text("service", key % 2 ? "VGCS" : "VBS");
    if (*evidence->calls.call[call].name) json_text("name", evidence->calls.call[call].name);
    json_flag("shown", verdict->has_shown);
    json_sentences("seen", &verdict->seen);
    json_sentences("missing", &verdict->missing);
    json_sentences("help", &verdict->help);
    if (verdict->shortest) json_number("ms_between_halves", verdict->shortest);
    if (verdict->timer) json_number(verdict->is_t3208 ? "t3208_needed" : "t3206_needed", verdict->timer);
    json_close();
}

static int show(const struct evidence *evidence, size_t call, int json)
{
    static struct verdict verdict;
    reach_verdict(evidence, call, &verdict);
    if (json) show_json(evidence, call, &verdict);
    else {
        printf("%s: %s%s%s\n", is_named(evidence, call) ? call_title(&evidence->calls, evidence->calls.keys[call]) : call_asked(&evidence->calls, call), verdict.has_shown ? good() : bad(), verdict.has_shown ? "it showed" : "it did not show", plain());
        print_sentences("seen", &verdict.seen);
        print_sentences("missing", &verdict.missing);
        print_sentences("help", &verdict.help);
        printf("\n");
    }
    return verdict.has_shown;
}

/* ---- The command ---- */

static int gather(struct evidence *evidence, const struct options *options)
{
    struct frame frame;
    evidence->timers = evidence->cells.timers = options->timers;
    evidence->cells.calls = &evidence->calls;
    while (capture_next(&evidence->capture, &frame)) {
        if (!is_asked_for(options, &frame) || take(evidence, &frame)) continue;
        complain("there is no memory left for what was seen");
        return 2;
    }
    return 0;
}

static int answer(struct evidence *evidence, const struct options *options)
{
    int status = gather(evidence, options);
    if (status) return status;
    for (size_t i = 0; i < evidence->calls.count; i++) {
        size_t other = calls_find(&evidence->calls, evidence->calls.keys[i] ^ 1);
        if (!is_passed_over(&evidence->calls, i, is_named(evidence, i), is_named(evidence, other)) && !show(evidence, i, options->json)) status = 1;
    }
    if (!evidence->calls.count) {
        complain("%s names no call", evidence->capture.name);
        status = 1;
    }
    show_capture(&evidence->capture, &evidence->calls, options->json);
    return *evidence->capture.damage ? 1 : status;
}

int command_why(int argc, char **argv)
{
    struct options options;
    int status = options_take(&options, argc, argv, "jft", help);
    if (status) return status == 1 ? 0 : 2;
    if (!options.n_words) {
        complain("why in which file? asternhaken why --help says more");
        return 2;
    }
    struct evidence *evidence = calloc(1, sizeof *evidence);
    if (!evidence) return 2;
    status = calls_or_all(&options, &evidence->calls);
    if (!status) status = capture_open(&evidence->capture, options.words[0]);
    if (!status) status = answer(evidence, &options);
    capture_close(&evidence->capture);
    accounts_free(&evidence->accounts);
    cells_free(&evidence->cells);
    free(evidence->log.kept);
    free(evidence);
    return finish_output() ? 2 : status;
}
