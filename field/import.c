/* asternhaken import: the notifications of one cell of a capture as a recorded day, in the format of docs/CAPTURE.md, for replay and mend. */
#include "answers.h"
#include "commands.h"
#include "show.h"
#include "watch.h"

#include <stdio.h>
#include <stdlib.h>
#include <string.h>
#include <unistd.h>

enum { TAG_SETUP = 0, TAG_NCH = 1, TAG_FACCH = 2, TAG_TICK = 7 };

static const char help[] =
    "asternhaken import [--arfcn N] [--t3206 MS] [--t3208 MS] FILE|- CALL.. > day.cap\n"
    "\n"
    "Writes the notifications of one cell as a recorded day, for asternhaken replay and mend. Where the file has several cells, --arfcn names the one.\n"
    "CALL is 4711/VBS, 4711/VGCS or 4711 for both. Names and group keys are not recorded. Ticks are ms from the first frame on.\n"
    "\n"
    "Status: 0 done, 1 nothing was found or the file is damaged, 2 the file or the words are wrong.\n";

struct import {
    struct options options;
    struct calls calls;
    struct cells cells;
    struct capture capture;
    uint64_t written;
};

/* ---- Fields ---- */

static void put(uint64_t value, int octets)
{
    while (octets-- > 0) putchar((int)(value >> 8 * octets & 255));
}

static void put_setup(const struct import *import, uint32_t tick)
{
    put(TAG_SETUP, 1);
    put(8 + 4 * import->calls.count, 2);
    put(tick, 4);
    put(import->cells.timers.t3206, 2);
    put(import->cells.timers.t3208, 2);
    for (size_t i = 0; i < import->calls.count; i++) put(import->calls.keys[i], 4);
}

static void put_event(uint32_t tag, uint32_t tick, const uint8_t *octets, size_t count)
{
    put(tag, 1);
    put(4 + count, 2);
    put(tick, 4);
    fwrite(octets, 1, count, stdout);
}

/* ---- Cells ---- */

static int refuse_second(const struct capture *capture, uint32_t first, uint32_t second)
{
    complain("%s has cells on ARFCN %u and %u: a recorded day is of one; --arfcn names it", capture->name, (unsigned)first, (unsigned)second);
    return 2;
}

/* A file is looked at before anything is written, so that nothing is where it has several cells. What comes through a pipe is refused at its second one. */
static int look_for_second(const struct import *import)
{
    struct capture capture;
    struct frame frame, first = { 0 };
    if (import->options.arfcn >= 0 || !strcmp(import->options.words[0], "-")) return 0;
    int n = 0, status = capture_open(&capture, import->options.words[0]);
    while (!status && capture_next(&capture, &frame)) {
        if (!n++) first = frame;
        if (frame.arfcn != first.arfcn || frame.is_pcs != first.is_pcs) status = refuse_second(&capture, first.arfcn, frame.arfcn);
    }
    capture_close(&capture);
    return status;
}

static int take(struct import *import, const struct frame *frame)
{
    uint64_t ms = import->capture.ms;
    uint32_t ticks[STEPS];
    struct cell *cell = cells_of(&import->cells, frame, ms);
    if (!cell) {
        complain("there is no memory left for a receiver");
        return 2;
    }
    if (import->cells.count > 1) return refuse_second(&import->capture, import->cells.first->arfcn, cell->arfcn);
    if (!import->written++) put_setup(import, (uint32_t)ms);
    size_t n = cell_bridge(cell, ms, ticks); /* a pause that is too long for one step is led over */
    for (size_t i = 0; i < n; i++) put_event(TAG_TICK, ticks[i], frame->message, 0);
    put_event(frame->kind == KIND_NCH ? TAG_NCH : TAG_FACCH, (uint32_t)ms, frame->message, frame->length);
    cell_feed(cell, frame, ms);
    return 0;
}

static int take_all(struct import *import)
{
    struct frame frame;
    int status = 0;
    while (!status && capture_next(&import->capture, &frame))
        if (is_asked_for(&import->options, &frame)) status = take(import, &frame);
    if (status) return status;
    if (*import->capture.damage) complain("%s is damaged %s", import->capture.name, import->capture.damage);
    if (!import->written) complain("%s has no notification%s", import->capture.name, import->options.arfcn < 0 ? "" : " of this cell");
    return *import->capture.damage || !import->written;
}

static int begin(struct import *import, int argc, char **argv)
{
    int status = options_take(&import->options, argc, argv, "ft", help);
    if (status) return status;
    if (!import->options.n_words) complain("import which file? asternhaken import --help says more");
    else if (isatty(STDOUT_FILENO)) complain("a recorded day is no text: write it to a file, as in > day.cap");
    else status = 1;
    if (!status || calls_or_all(&import->options, &import->calls)) return 2;
    import->cells.calls = &import->calls;
    import->cells.timers = import->options.timers;
    status = look_for_second(import);
    return status ? status : capture_open(&import->capture, import->options.words[0]);
}

int command_import(int argc, char **argv)
{
    struct import *import = calloc(1, sizeof *import);
    if (!import) return 2;
    int status = begin(import, argc, argv);
    if (status) {
        free(import);
        return status == 1 ? 0 : 2;
    }
    status = take_all(import);
    capture_close(&import->capture);
    cells_free(&import->cells);
    free(import);
    return finish_output() ? 2 : status;
}
