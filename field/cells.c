/* The cells of a capture: one receiver for each ARFCN. */
#include "cells.h"

#include "show.h"

#include <stdio.h>
#include <stdlib.h>

static uint32_t set_up(const struct cells *cells, struct cell *cell)
{
    const struct calls *calls = cells->calls;
    return asternhaken_setup(cell->state, sizeof cell->state, calls->keys, calls->count, calls->sets, calls->count, (uint32_t)cell->ms, cells->timers.t3206, cells->timers.t3208, ASTERNHAKEN_T3210);
}

static struct cell *new_cell(struct cells *cells, const struct frame *frame, uint64_t ms)
{
    struct cell *cell = calloc(1, sizeof *cell);
    if (!cell) return NULL;
    cell->arfcn = frame->arfcn;
    cell->is_pcs = frame->is_pcs;
    cell->ms = ms;
    if (ASTERNHAKEN_REFUSAL(set_up(cells, cell))) {
        free(cell);
        return NULL;
    }
    if (cells->last) cells->last->next = cell;
    else cells->first = cell;
    cells->last = cell;
    cells->count++;
    return cell;
}

struct cell *cells_of(struct cells *cells, const struct frame *frame, uint64_t ms)
{
    struct cell **cell = &cells->by_number[(frame->is_pcs << 14 | frame->arfcn) % NUMBERS];
    if (!*cell) *cell = new_cell(cells, frame, ms);
    return *cell;
}

/* Behind so long a pause every half has run out, so a pause longer by 2^32 ms leaves the same: four steps lead to every tick. */
size_t ticks_between(uint64_t from, uint64_t to, uint32_t ticks[STEPS])
{
    uint32_t tick = (uint32_t)from, end = (uint32_t)to;
    size_t n = 0;
    if (to - from <= PAUSE) return 0;
    do ticks[n++] = tick += PAUSE;
    while (end - tick > PAUSE && n < STEPS);
    return n;
}

size_t cell_bridge(struct cell *cell, uint64_t ms, uint32_t ticks[STEPS])
{
    size_t n = ticks_between(cell->ms, ms, ticks);
    uint64_t ran_out;
    for (size_t i = 0; i < n; i++) {
        if (ASTERNHAKEN_REFUSAL(asternhaken_tick(cell->state, sizeof cell->state, ticks[i]))) break;
        asternhaken_read(cell->state, sizeof cell->state, 0, ASTERNHAKEN_PART_EXPIRED, &ran_out);
        cell->ran_out += ran_out;
    }
    if (n) cell->ms = ms - (uint32_t)((uint32_t)ms - ticks[n - 1]);
    return n;
}

uint32_t cell_feed(struct cell *cell, const struct frame *frame, uint64_t ms)
{
    uint32_t ticks[STEPS];
    cell->ran_out = 0;
    cell_bridge(cell, ms, ticks);
    cell->messages++;
    uint32_t result = frame->kind == KIND_NCH ? asternhaken_nch(cell->state, sizeof cell->state, (uint32_t)ms, frame->message, frame->length)
                                              : asternhaken_facch(cell->state, sizeof cell->state, (uint32_t)ms, frame->message, frame->length);
    if (ASTERNHAKEN_REFUSAL(result)) cell->refused++;
    else cell->ms = ms; /* a refused message leaves the clock as it was */
    return result;
}

int cell_nln(struct cell *cell, const struct frame *frame)
{
    struct asternhaken_nch_message message;
    if (frame->kind != KIND_NCH || ASTERNHAKEN_REFUSAL(asternhaken_nch_decode(frame->message, frame->length, &message)) || !message.nln_given) return 0;
    int before = cell->nln;
    cell->nln = (int)message.nln + 1;
    if (!before || before == cell->nln) return 0;
    cell->nln_changes++;
    return 1;
}

void cells_free(struct cells *cells)
{
    for (struct cell *cell = cells->first, *next; cell; cell = next) {
        next = cell->next;
        free(cell);
    }
}

const char *cell_name(const struct cell *cell)
{
    static char name[32];
    snprintf(name, sizeof name, "ARFCN %u%s", (unsigned)cell->arfcn, cell->is_pcs ? " (PCS)" : "");
    return name;
}
