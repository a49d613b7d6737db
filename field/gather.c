/* The calls of a capture, gathered where none is named. */
#include "capture.h"
#include "show.h"
#include "watch.h"

#include <string.h>

int is_asked_for(const struct options *options, const struct frame *frame)
{
    return options->arfcn < 0 || (uint64_t)options->arfcn == frame->arfcn;
}

static void put(struct calls *calls, uint64_t reference, uint64_t vgcs)
{
    if (!calls_put(calls, ASTERNHAKEN_KEY(reference, vgcs), 0, "")) calls->left_out++;
}

static void gather_nch(const struct frame *frame, struct calls *calls)
{
    struct asternhaken_nch_message message;
    if (ASTERNHAKEN_REFUSAL(asternhaken_nch_decode(frame->message, frame->length, &message))) return;
    for (uint64_t i = 0; i < message.n_calls; i++) put(calls, message.calls[i].call_reference, message.calls[i].vgcs);
    for (uint64_t i = 0; i < message.n_reduced; i++) put(calls, message.reduced[i].call_reference, message.reduced[i].vgcs);
}

static void gather_facch(const struct frame *frame, struct calls *calls)
{
    struct asternhaken_facch_message message;
    if (ASTERNHAKEN_REFUSAL(asternhaken_facch_decode(frame->message, frame->length, &message)) || message.paging) return;
    put(calls, message.call.call_reference, message.call.vgcs);
}

static int gather(const struct options *options, struct calls *calls)
{
    struct capture capture;
    struct frame frame;
    if (!strcmp(options->words[0], "-")) {
        complain("standard input can be read but once: name the calls to follow, as 4711/VBS");
        return 2;
    }
    if (capture_open(&capture, options->words[0])) return 2;
    while (capture_next(&capture, &frame)) {
        if (!is_asked_for(options, &frame)) continue;
        if (frame.kind == KIND_NCH) gather_nch(&frame, calls);
        else gather_facch(&frame, calls);
    }
    capture_close(&capture);
    return 0;
}

int calls_or_all(const struct options *options, struct calls *calls)
{
    memset(calls, 0, sizeof *calls);
    return options->n_words > 1 ? options_calls(options, 1, calls) : gather(options, calls);
}
