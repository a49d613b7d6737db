/* What the receiver answers to a message, shown as lines or as JSON. */
#ifndef ANSWERS_H
#define ANSWERS_H

#include "calls.h"
#include "capture.h"
#include "cells.h"

/* A message and what goes with it. */
struct heard {
    const struct capture *capture;
    const struct frame *frame;
    struct cell *cell;
    const struct calls *calls;
    int json;
};

/* The heading of the lines. */
void show_heading(void);

/* An entry of the last answer, a page, halves that ran out or were dropped, a refusal. */
void show_entry(const struct heard *heard, const struct asternhaken_entry *entry);
void show_page(const struct heard *heard, const struct asternhaken_paged *paged);
void show_lost(const struct heard *heard, uint64_t ran_out, uint64_t dropped);
void show_refusal(const struct heard *heard, uint32_t result);

/* What a complete entry says beside its call, on the rest of a line; or as keys of the present object. */
void print_record(const struct asternhaken_entry *entry);
void json_record(const struct asternhaken_entry *entry);

/* "yard 4711 VBS"; and as it was asked for, "yard 4711" where no service was named. */
const char *call_title(const struct calls *calls, uint64_t key);
const char *call_asked(const struct calls *calls, size_t i);

/* What the capture was, once it is read: frames by their kinds, damage, times that go back. */
void show_capture(const struct capture *capture, const struct calls *calls, int json);

#endif
