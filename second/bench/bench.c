/* The benchmark: ns for each event and each reading by the library, by the plain implementation of two compilers, and by bit vectors, in one run.
 *
 * Every row is run by all of them in turn, many times over in short runs, and the best run of each counts, so that a busy machine favours none. Before anything is
 * measured, the answers of all sides are compared; no figure is printed where they differ.
 *
 *   bench            the answers, then the tables
 *   bench --quick    the answers, then a coarse guard
 *   bench --answers  the answers alone, for an emulator, where a time says nothing
 *   bench --count    runs each row once between two marks, for a tool outside that counts instructions, and prints the order of the rows
 *
 * --messages N and --sequences N say how many random ones are compared, --seed N which. */
#define _POSIX_C_SOURCE 200809L
#include "agree.h"
#include "messages.h"
#include "yards.h"

#include <inttypes.h>
#include <stdio.h>
#include <stdlib.h>
#include <string.h>
#include <time.h>
#include <ucontext.h>
#ifdef COUNT_INSTRUCTIONS
#include <valgrind/callgrind.h>
#else
#define CALLGRIND_ZERO_STATS
#define CALLGRIND_DUMP_STATS
#endif

extern const struct side *const library;

enum { KEYS = 50, FOREIGN = 123456, FIRST_TICK = 1000, TIMER = 60000, RUN = 2000, COUNTED = 10, LIMIT = 10, LIMIT_DROPPING = 16 };
enum { STATE = 1 << 15, FRESH = 32, MANY = 10000 };
enum kind { TICK, BIT_22, NCH, FACCH, PCH, JOINED, RESELECTED, WRITE_NCH, WRITE_FACCH, UPLINK_WAITS, UPLINK_TURNS, YARD_TICK, YARD_NCH, READ_NCH, READ_FACCH };

/* A row of the table: a receiver that holds so many halves, or a yard set that shows so many calls, and one or two messages handed in by turns. What is written is a message that was read.
 * Where the event drops the halves, each of FRESH receivers gets one. */
struct row {
    const char *name;
    enum kind kind;
    unsigned halves;
    int spread;
    struct message messages[2];
    uint64_t record[NCH_NUMBERS];
};

/* Who runs a row: a side, its readers into numbers, or readers into a record. */
struct runner {
    const char *name;
    const struct side *side;
    const struct readers *readers;
};

static uint32_t keys[KEYS], sets[KEYS];
static uint8_t *working;
static _Alignas(64) uint64_t numbers[NCH_NUMBERS];
static _Alignas(64) uint8_t written[23];
static _Alignas(64) struct plain_nch nch_record;
static _Alignas(64) struct plain_facch facch_record;

/* ---- Rows ---- */

enum { ROWS = 128 };
static struct row rows[ROWS];
static unsigned n_rows, n_event_rows;

static void add(const char *name, enum kind kind, unsigned halves, int spread, struct message a, struct message b)
{
    struct row *r = &rows[n_rows++];
    *r = (struct row){ name, kind, halves, spread, { a, b }, { 0 } };
    if (kind == WRITE_NCH)
        plain_gcc.nch_numbers(a.octets, a.n, r->record, NCH_NUMBERS);
    if (kind == WRITE_FACCH)
        plain_gcc.facch_numbers(a.octets, a.n, r->record, FACCH_NUMBERS);
}

/* The messages that are read, and their records written: with their names behind the words, of the NCH or of the FACCH. */
static void add_messages(const char *const *names, enum kind nch, enum kind facch)
{
    uint32_t key = keys[KEYS - 1];
    const struct message all[7] = { clear_call(key), first_half(key), second_half_reduced(key), two_calls(key, keys[0]), facch_first_half(key), facch_second_half(key), facch_page() };
    for (unsigned i = 0; i < 7; i++)
        add(names[i], i < 4 ? nch : facch, 0, 0, all[i], all[i]);
}

/* The measured key is the last one, so that every search for it goes over all keys. */
static void make_rows(void)
{
    static const char *const written_names[7] = { "writing NCH: a clear call", "writing NCH: a first half", "writing NCH: a second half by reduced reference",
        "writing NCH: two calls with both releases", "writing FACCH: a first half", "writing FACCH: a second half", "writing FACCH: a page" };
    static const char *const read_names[7] = { "NCH: a clear call", "NCH: a first half", "NCH: a second half by reduced reference", "NCH: two calls with both releases",
        "FACCH: a first half", "FACCH: a second half", "FACCH: a page" };
    static const struct { unsigned halves; int spread; } held[] = { { 0, 0 }, { 4, 0 }, { 10, 0 }, { 50, 0 }, { 98, 0 }, { 4, 1 }, { 10, 1 } };
    struct message none = { { 0 }, 0, { 0 } };
    uint32_t key = keys[KEYS - 1];
    for (unsigned i = 0; i < sizeof held / sizeof *held; i++)
        add("tick", TICK, held[i].halves, held[i].spread, none, none);
    for (unsigned i = 0; i < sizeof held / sizeof *held; i++)
        add("bit 22 of COUNT, 0 and 1 by turns", BIT_22, held[i].halves, held[i].spread, none, none);
    for (unsigned i = 0; i < 5; i++)
        add("NCH, no entry of ours", NCH, held[i].halves, 0, clear_call(FOREIGN), clear_call(FOREIGN));
    for (unsigned i = 0; i < 5; i++)
        add("NCH, a half stored and joined in turn", NCH, held[i].halves, 0, first_half(key), second_half_reduced(key));
    for (unsigned i = 0; i < 5; i++)
        add("FACCH, no entry of ours", FACCH, held[i].halves, 0, facch_clear_call(FOREIGN), facch_clear_call(FOREIGN));
    for (unsigned i = 0; i < 5; i++)
        add("FACCH, a half stored and joined in turn", FACCH, held[i].halves, 0, facch_first_half(key), facch_second_half(key));
    for (unsigned i = 0; i < 5; i++)
        add("FACCH, somebody is paged", FACCH, held[i].halves, 0, facch_page(), facch_page());
    for (unsigned i = 0; i < 5; i++)
        add("PCH, no entry of ours", PCH, held[i].halves, 0, pch_clear_call(FOREIGN), pch_clear_call(FOREIGN));
    for (unsigned i = 0; i < 5; i++)
        add("PCH, a half stored and joined in turn", PCH, held[i].halves, 0, pch_first_half(key), pch_second_half(key));
    for (unsigned i = 0; i < sizeof held / sizeof *held; i++)
        add("joined, under another key, which drops all halves", JOINED, held[i].halves, held[i].spread, none, none);
    for (unsigned i = 0; i < sizeof held / sizeof *held; i++)
        add("reselected, which drops those of the NCH", RESELECTED, held[i].halves, held[i].spread, none, none);
    add_messages(written_names, WRITE_NCH, WRITE_FACCH);
    add("uplink, a tick while a request waits", UPLINK_WAITS, 0, 0, none, none);
    add("uplink, free, request, busy and request by turns", UPLINK_TURNS, 0, 0, none, none);
    uint32_t last = yard_keys[YARD_KEYS - 1];
    for (unsigned calls = 0; calls < YARD_KEYS; calls += YARD_KEYS - 1) {
        add("yard set, so many calls shown: tick", YARD_TICK, calls, 0, none, none);
        add("yard set, so many calls shown: NCH, no entry of ours", YARD_NCH, calls, 0, clear_call(FOREIGN), clear_call(FOREIGN));
        add("yard set, so many calls shown: NCH, one more clear call", YARD_NCH, calls, 0, clear_call(last), clear_call(last));
        add("yard set, so many calls shown: NCH, a half stored and joined in turn", YARD_NCH, calls, 0, first_half(last), second_half_reduced(last));
    }
    n_event_rows = n_rows;
    add_messages(read_names, READ_NCH, READ_FACCH);
}

/* The uplink has a state of its own. */
static int is_uplink(const struct row *r) { return r->kind == UPLINK_WAITS || r->kind == UPLINK_TURNS; }

static int is_yard(const struct row *r) { return r->kind == YARD_TICK || r->kind == YARD_NCH; }

/* Each event goes to a receiver of its own. */
static int is_fresh(const struct row *r) { return r->kind == JOINED || r->kind == RESELECTED; }

/* The next receiver begins with a line of the cache. */
static size_t stride(const struct side *s) { return (s->state_length + 63) & ~(size_t)63; }

static uint32_t uplink_event(const struct side *s, uint8_t *state, const struct row *r, unsigned i)
{
    static const unsigned turns[4] = { UPLINK_FREE, UPLINK_REQUEST, UPLINK_BUSY, UPLINK_REQUEST };
    return s->uplink[r->kind == UPLINK_WAITS ? UPLINK_TICK : turns[i % 4]](state, s->uplink_length, FIRST_TICK + i);
}

/* The place of a half of a row: the even ones are of the NCH. */
static unsigned place_of(const struct row *r, unsigned i) { return r->spread ? i * 98 / r->halves : i; }

static unsigned nch_halves(const struct row *r)
{
    unsigned n = 0;
    for (unsigned i = 0; i < r->halves; i++)
        n += place_of(r, i) % 2 == 0;
    return n;
}

/* A receiver of fifty keys that holds the row's halves: the first places of both channels, or places spread over all; an uplink, or a yard set. */
static int fill(const struct side *s, uint8_t *state, const struct row *r)
{
    if (is_uplink(r)) {
        memset(state, 0, s->state_length);
        return s->uplink_setup(state, s->uplink_length, FIRST_TICK, TIMER) == 0 && s->uplink[UPLINK_REQUEST](state, s->uplink_length, FIRST_TICK) == 3 << 16;
    }
    if (is_yard(r))
        return fill_yard(s, state, r->halves, FIRST_TICK);
    if (s->setup(state, s->state_length, keys, KEYS, sets, KEYS, FIRST_TICK, TIMER, TIMER, TIMER) != 0)
        return 0;
    for (unsigned i = 0; i < r->halves; i++) {
        unsigned place = place_of(r, i);
        uint32_t key = keys[place / 2];
        struct message m = place % 2 ? facch_first_half(key) : first_half(key);
        uint64_t told = 0;
        if ((place % 2 ? s->facch : s->nch)(state, s->state_length, FIRST_TICK, m.octets, m.n) != 0)
            return 0;
        s->read(state, s->state_length, 0, 4, &told);
        if (told != 4)
            return 0;
    }
    return 1;
}

/* ---- Runs ---- */

/* One event for each of n receivers that stand behind each other; two messages by turns of all receivers. */
static void run_in_turn(const struct side *s, const struct row *r, uint8_t *state, unsigned n, unsigned turn)
{
    const struct message *m = &r->messages[turn % 2];
    uint32_t tick = FIRST_TICK + turn;
    size_t length = s->state_length, step = stride(s);
    for (unsigned i = 0; i < n; i++, state += step)
        switch (r->kind) {
        case NCH: s->nch(state, length, tick, m->octets, m->n); break;
        case FACCH: s->facch(state, length, tick, m->octets, m->n); break;
        case JOINED: s->joined(state, length, tick, FOREIGN); break;
        case RESELECTED: s->reselected(state, length, tick); break;
        default: s->tick(state, length, tick);
        }
}

static uint32_t write_row(const struct side *s, const struct row *r)
{
    return r->kind == WRITE_NCH ? s->nch_write(r->record, NCH_NUMBERS, written, 20) : s->facch_write(r->record, FACCH_NUMBERS, written, sizeof written);
}

static void run(const struct runner *w, const struct row *r, unsigned n)
{
    const struct message *a = &r->messages[0], *b = &r->messages[1];
    const struct side *s = w->side;
    switch (r->kind) {
    case JOINED:
    case RESELECTED:
        run_in_turn(s, r, working, n, 0);
        break;
    case TICK:
        for (unsigned i = 0; i < n; i++)
            s->tick(working, s->state_length, FIRST_TICK + i);
        break;
    case BIT_22:
        for (unsigned i = 0; i < n; i++)
            s->bit_22(working, s->state_length, FIRST_TICK + i, i % 2);
        break;
    case NCH:
        for (unsigned i = 0; i < n; i += 2) {
            s->nch(working, s->state_length, FIRST_TICK + i, a->octets, a->n);
            s->nch(working, s->state_length, FIRST_TICK + i + 1, b->octets, b->n);
        }
        break;
    case FACCH:
        for (unsigned i = 0; i < n; i += 2) {
            s->facch(working, s->state_length, FIRST_TICK + i, a->octets, a->n);
            s->facch(working, s->state_length, FIRST_TICK + i + 1, b->octets, b->n);
        }
        break;
    case PCH:
        for (unsigned i = 0; i < n; i += 2) {
            s->pch(working, s->state_length, FIRST_TICK + i, a->entry, 14);
            s->pch(working, s->state_length, FIRST_TICK + i + 1, b->entry, 14);
        }
        break;
    case WRITE_NCH:
    case WRITE_FACCH:
        for (unsigned i = 0; i < n; i++)
            write_row(s, r);
        break;
    case UPLINK_WAITS:
    case UPLINK_TURNS:
        for (unsigned i = 0; i < n; i++)
            uplink_event(s, working, r, i);
        break;
    case YARD_TICK:
        for (unsigned i = 0; i < n; i++)
            s->yard_tick(working, s->yard_length, FIRST_TICK + i);
        break;
    case YARD_NCH:
        for (unsigned i = 0; i < n; i += 2) {
            s->yard_nch(working, s->yard_length, FIRST_TICK + i, a->octets, a->n);
            s->yard_nch(working, s->yard_length, FIRST_TICK + i + 1, b->octets, b->n);
        }
        break;
    case READ_NCH:
        for (unsigned i = 0; i < n; i++)
            if (w->readers)
                w->readers->nch(a->octets, a->n, &nch_record);
            else
                s->nch_numbers(a->octets, a->n, numbers, NCH_NUMBERS);
        break;
    case READ_FACCH:
        for (unsigned i = 0; i < n; i++)
            if (w->readers)
                w->readers->facch(a->octets, a->n, &facch_record);
            else
                s->facch_numbers(a->octets, a->n, numbers, FACCH_NUMBERS);
        break;
    }
}

static double now(void)
{
    struct timespec t;
    clock_gettime(CLOCK_MONOTONIC, &t);
    return (double)t.tv_sec * 1e9 + (double)t.tv_nsec;
}

/* ---- Answers first ---- */

static unsigned passed, failed;

static void check(int good, const char *what)
{
    if (good)
        passed++;
    else
        failed++;
    if (!good)
        printf("failed: %s\n", what);
}

/* Event j of a row that has a receiver or a yard set. */
static uint32_t row_event(const struct side *s, uint8_t *state, const struct row *r, uint32_t j)
{
    const struct message *m = &r->messages[j % 2];
    uint32_t tick = FIRST_TICK + j;
    switch (r->kind) {
    case TICK: return s->tick(state, s->state_length, tick);
    case BIT_22: return s->bit_22(state, s->state_length, tick, j % 2);
    case NCH: return s->nch(state, s->state_length, tick, m->octets, m->n);
    case FACCH: return s->facch(state, s->state_length, tick, m->octets, m->n);
    case PCH: return s->pch(state, s->state_length, tick, m->entry, 14);
    case JOINED: return s->joined(state, s->state_length, tick, FOREIGN);
    case RESELECTED: return s->reselected(state, s->state_length, tick);
    case YARD_TICK: return s->yard_tick(state, s->yard_length, tick);
    default: return s->yard_nch(state, s->yard_length, tick, m->octets, m->n);
    }
}

/* That it measures what it says. */
static int is_as_named(const struct side *s, const uint8_t *state, const struct row *r, uint32_t j)
{
    uint64_t told = 0, dropped = 0;
    s->read(state, s->state_length, 0, 4, &told);
    s->read(state, s->state_length, 0, 1, &dropped);
    if (is_fresh(r))
        return dropped == (j ? 0 : r->kind == JOINED ? r->halves : nch_halves(r));
    return !strstr(r->name, "in turn") || told == (j % 2 ? 3 : 4);
}

/* Every measured row, for twenty events, with all answers compared after each. */
static void check_rows(const struct side *const *sides, unsigned n_sides)
{
    uint8_t *states[MOST_SIDES];
    for (unsigned k = 0; k < n_sides; k++)
        states[k] = aligned_alloc(64, STATE);
    for (unsigned i = 0; i < n_rows; i++) {
        const struct row *r = &rows[i];
        int good = 1;
        for (unsigned k = 0; k < n_sides; k++)
            good = good && fill(sides[k], states[k], r);
        for (uint32_t j = 0; good && j < 20; j++) {
            const struct message *m = &r->messages[j % 2];
            if (r->kind == READ_NCH || r->kind == READ_FACCH) {
                good = same_reading(sides, n_sides, r->kind == READ_FACCH, m->octets, m->n);
                continue;
            }
            if (r->kind == WRITE_NCH || r->kind == WRITE_FACCH) {
                good = same_writing(sides, n_sides, r->kind == WRITE_FACCH, r->record, m->n) && write_row(sides[0], r) == 0;
                continue;
            }
            if (is_uplink(r)) {
                uint32_t due = r->kind == UPLINK_WAITS ? 0 : (const uint32_t[4]){ 1 << 8, 1 << 16, 0, 3 << 16 }[j % 4];
                for (unsigned k = 0; k < n_sides; k++)
                    good = good && uplink_event(sides[k], states[k], r, j) == due;
                continue;
            }
            for (unsigned k = 0; k < n_sides; k++)
                good = row_event(sides[k], states[k], r, j) == 0 && good;
            good = good && same_answers(sides, states, n_sides, r->name) && (!is_yard(r) || same_calls(sides, states, n_sides, r->name));
            good = good && is_as_named(sides[0], states[0], r, j);
        }
        check(good, r->name);
    }
    for (unsigned k = 0; k < n_sides; k++)
        free(states[k]);
}

static int answers_agree(uint64_t seed, unsigned messages, unsigned sequences)
{
    const struct side *sides[MOST_SIDES] = { &plain_gcc, &plain_clang, library };
    unsigned n_sides = library ? 3 : 2;
    check_rows(sides, n_sides);
    check(messages_alike(sides, n_sides, seed, messages) == messages, "random messages");
    check(sequences_alike(sides, n_sides, seed + 1, sequences, 40) == sequences, "random event sequences");
    check(uplinks_alike(sides, n_sides, seed + 2, sequences, 40) == sequences, "random event sequences of the uplink");
    check(yards_alike(sides, n_sides, seed + 3, sequences, 40) == sequences, "random event sequences of yard sets");
    if (failed)
        return 0;
    printf("The answers agree: all rows, %u random messages, %u random sequences of 40 events, as many of the uplink and of yard sets (seed %" PRIu64 ").\n", messages, sequences, seed);
    printf("Refusals met in the sequences:");
    for (unsigned i = 0, n = 0; i < 16; i++)
        if (refusals_seen[i])
            printf("%s %u: %lu", n++ ? "," : "", i, refusals_seen[i]);
    printf(". Numbers told:");
    for (unsigned i = 0; i < 9; i++)
        printf(" %u: %lu%s", i, told_seen[i], i == 8 ? "." : ",");
    printf(" Beside 2 and 3: no key %lu, no count %lu, follow %lu. Somebody was paged %lu times.\n", follow_seen[1], follow_seen[2], follow_seen[3], paged_seen);
    for (int facch = 0; facch < 2; facch++) {
        printf("Refusals met in writing %s messages:", facch ? "FACCH" : "NCH");
        for (unsigned i = 0, n = 0; i < 16; i++)
            if (writer_refusals_seen[facch][i])
                printf("%s %u: %lu", n++ ? "," : "", i, writer_refusals_seen[facch][i]);
        printf(".\n");
    }
    printf("Requests for the uplink: granted %lu, rejected %lu, waiting %lu, already waiting %lu.\n", uplink_seen[1], uplink_seen[2], uplink_seen[3], uplink_seen[4]);
    return 1;
}

/* ---- Figures ---- */

enum { RUNNERS = 6 };
static const struct runner event_runners[RUNNERS] = { { "library", NULL, NULL }, { "plain_gcc", &plain_gcc, NULL }, { "plain_clang", &plain_clang, NULL } };
static const struct runner read_runners[RUNNERS] = {
    { "library", NULL, NULL }, { "plain_gcc", NULL, &plain_gcc_readers }, { "plain_clang", NULL, &plain_clang_readers },
    { "plain_gcc_numbers", &plain_gcc, NULL }, { "plain_clang_numbers", &plain_clang, NULL }, { "bitwise", NULL, &bitwise_readers }
};

/* The runner, or one without a name where there is none. */
static struct runner runner_of(unsigned row, unsigned k)
{
    struct runner w = row < n_event_rows ? event_runners[k] : read_runners[k];
    if (w.name && !w.side && !w.readers) {
        w.side = library;
        if (!library)
            w.name = NULL;
    }
    return w;
}

static double best[ROWS][RUNNERS];
static uint8_t *filled[ROWS][RUNNERS];

/* Rows that hold the same halves share the octets that they start from. */
static void prepare(void)
{
    for (unsigned i = 0; i < n_event_rows; i++)
        for (unsigned k = 0; k < RUNNERS; k++) {
            struct runner w = runner_of(i, k);
            for (unsigned j = 0; w.name && j < i && !filled[i][k]; j++)
                if (rows[j].halves == rows[i].halves && rows[j].spread == rows[i].spread && is_uplink(&rows[j]) == is_uplink(&rows[i]) && is_yard(&rows[j]) == is_yard(&rows[i]))
                    filled[i][k] = filled[j][k];
            if (w.name && !filled[i][k]) {
                filled[i][k] = aligned_alloc(64, STATE);
                fill(w.side, filled[i][k], &rows[i]);
            }
        }
}

static void start(unsigned i, unsigned k)
{
    struct runner w = runner_of(i, k);
    for (unsigned j = 0; filled[i][k] && j < (is_fresh(&rows[i]) ? FRESH : 1); j++)
        memcpy(working + j * stride(w.side), filled[i][k], is_yard(&rows[i]) ? w.side->yard_length : w.side->state_length);
}

static void measure(unsigned rounds)
{
    for (unsigned round = 0; round < rounds; round++)
        for (unsigned i = 0; i < n_rows; i++)
            for (unsigned k = 0; k < RUNNERS; k++) {
                struct runner w = runner_of(i, k);
                if (!w.name)
                    continue;
                unsigned events = is_fresh(&rows[i]) ? FRESH : RUN;
                start(i, k);
                run(&w, &rows[i], 20);
                start(i, k);
                double t = now();
                run(&w, &rows[i], events);
                t = (now() - t) / events;
                if (round == 0 || t < best[i][k])
                    best[i][k] = t;
            }
}

/* ---- Many receivers, more than any cache holds, and each event goes to the next one ---- */

enum { MANY_ROWS = 5, EVENT_RUNNERS = 3 };
static struct row many_rows[MANY_ROWS];
static double many_best[MANY_ROWS][EVENT_RUNNERS];

static void make_many_rows(void)
{
    struct message none = { { 0 }, 0, { 0 } }, foreign = clear_call(FOREIGN), facch_foreign = facch_clear_call(FOREIGN);
    uint32_t key = keys[KEYS - 1];
    many_rows[0] = (struct row){ "10,000 receivers in turn: tick", TICK, 4, 0, { none, none }, { 0 } };
    many_rows[1] = (struct row){ "10,000 receivers in turn: NCH, no entry of ours", NCH, 4, 0, { foreign, foreign }, { 0 } };
    many_rows[2] = (struct row){ "10,000 receivers in turn: NCH, a half stored and joined", NCH, 4, 0, { first_half(key), second_half_reduced(key) }, { 0 } };
    many_rows[3] = (struct row){ "10,000 receivers in turn: FACCH, no entry of ours", FACCH, 4, 0, { facch_foreign, facch_foreign }, { 0 } };
    many_rows[4] = (struct row){ "10,000 receivers in turn: FACCH, a half stored and joined", FACCH, 4, 0, { facch_first_half(key), facch_second_half(key) }, { 0 } };
}

/* A turn of all receivers. It is timed in pieces, of which the best count, since a busy machine seldom leaves a whole turn alone. */
enum { PIECE = 50, PIECES = MANY / PIECE };
static void many_turn(const struct side *s, const struct row *r, uint8_t *states, unsigned turn, double *least)
{
    for (unsigned i = 0; i < PIECES; i++) {
        double t = now();
        run_in_turn(s, r, states + i * PIECE * stride(s), PIECE, turn);
        t = now() - t;
        if (turn < 2 || t < least[i])
            least[i] = t;
    }
}

/* Two turns, as often as told, by all sides one after the other. */
static void measure_many_row(unsigned row, uint8_t *const *states, unsigned times)
{
    static double least[EVENT_RUNNERS][2][PIECES];
    for (unsigned k = 0; k < EVENT_RUNNERS; k++) {
        const struct side *s = runner_of(0, k).side;
        for (unsigned i = 0; states[k] && i < MANY; i++)
            if (i)
                memcpy(states[k] + i * stride(s), states[k], s->state_length);
            else
                fill(s, states[k], &many_rows[row]);
    }
    for (unsigned turn = 0; turn < 2 * times; turn++)
        for (unsigned k = 0; k < EVENT_RUNNERS; k++)
            if (states[k])
                many_turn(runner_of(0, k).side, &many_rows[row], states[k], turn, least[k][turn % 2]);
    for (unsigned k = 0; k < EVENT_RUNNERS; k++)
        for (unsigned i = 0; i < PIECES; i++)
            many_best[row][k] += (least[k][0][i] + least[k][1][i]) / (2 * MANY);
}

static void measure_many(unsigned times)
{
    uint8_t *states[EVENT_RUNNERS] = { NULL };
    make_many_rows();
    for (unsigned k = 0; k < EVENT_RUNNERS; k++)
        if (runner_of(0, k).name)
            states[k] = aligned_alloc(64, MANY * stride(runner_of(0, k).side));
    for (unsigned i = 0; i < MANY_ROWS; i++)
        measure_many_row(i, states, times);
    for (unsigned k = 0; k < EVENT_RUNNERS; k++)
        free(states[k]);
}

/* The two marks. They differ, so that no compiler makes one function of them. */
__attribute__((noinline)) static void counted_from(void)
{
    __asm__ volatile("" : : "r"(1));
    CALLGRIND_ZERO_STATS;
}

__attribute__((noinline)) static void counted_to(void)
{
    CALLGRIND_DUMP_STATS;
    __asm__ volatile("" : : "r"(2));
}

/* The marks' addresses first, then a line "row|halves|runner" for each run of COUNTED events. */
static void count(void)
{
    printf("%" PRIxPTR " %" PRIxPTR " %d\n", (uintptr_t)counted_from, (uintptr_t)counted_to, COUNTED);
    for (unsigned i = 0; i < n_rows; i++)
        for (unsigned k = 0; k < RUNNERS; k++) {
            struct runner w = runner_of(i, k);
            if (!w.name)
                continue;
            start(i, k);
            counted_from();
            run(&w, &rows[i], COUNTED);
            counted_to();
            printf("%s|%u%s|%s\n", rows[i].name, rows[i].halves, rows[i].spread ? ", spread" : "", w.name);
        }
}

/* ---- Stack ---- */

enum { STACK = 1 << 16, PAINT = 0xA5 };
static ucontext_t back, inside;
static struct runner lent_runner;
static const struct row *lent_row;
static unsigned lent_events;

static void run_lent(void)
{
    run(&lent_runner, lent_row, lent_events);
}

/* How many octets of a painted stack some events of a row leave in another colour. */
static size_t touched(uint8_t *stack, unsigned row, unsigned events)
{
    size_t clean = 0;
    lent_runner = runner_of(row, 0);
    lent_row = &rows[row];
    lent_events = events;
    start(row, 0);
    memset(stack, PAINT, STACK);
    getcontext(&inside);
    inside.uc_stack.ss_sp = stack;
    inside.uc_stack.ss_size = STACK;
    inside.uc_link = &back;
    makecontext(&inside, run_lent, 0);
    swapcontext(&back, &inside);
    while (clean < STACK && stack[clean] == PAINT)
        clean++;
    return STACK - clean;
}

/* The library's deepest stack over all rows, without what the benchmark itself takes. */
static void print_stack(void)
{
    uint8_t *stack = aligned_alloc(64, STACK);
    size_t most = 0;
    unsigned where = 0;
    for (unsigned i = 0; i < n_rows; i++) {
        touched(stack, i, 4);
        size_t n = touched(stack, i, 4) - touched(stack, i, 0);
        if (n > most) {
            most = n;
            where = i;
        }
    }
    printf("The library's deepest stack in these rows: %zu octets (%s).\n", most, rows[where].name);
    free(stack);
}

/* ---- Tables ---- */

/* A figure of the library, where there is one. */
static void own(int digits, double x)
{
    if (library)
        printf(" %.*f |", digits, x);
    else
        printf(" - |");
}

static void beside(double x, double of)
{
    printf(" %.1f |", of);
    own(2, x / of);
}

static void print_event(const struct row *r, const double *ns)
{
    printf("| %s | %u%s |", r->name, r->halves, r->spread ? ", spread" : "");
    own(1, ns[0]);
    beside(ns[0], ns[1]);
    beside(ns[0], ns[2]);
    printf("\n");
}

static void print_tables(void)
{
    printf("\nns per event; the ratio is the library's time to that of the plain implementation.\n\n");
    printf("| event | halves held | library | plain, gcc -O2 | ratio | plain, clang -O3 | ratio |\n|---|---|---|---|---|---|---|\n");
    for (unsigned i = 0; i < n_event_rows; i++)
        print_event(&rows[i], best[i]);
    for (unsigned i = 0; i < MANY_ROWS; i++)
        print_event(&many_rows[i], many_best[i]);
    printf("\nns per reading. The library reads into an array of numbers, 106 for the NCH and 30 for the FACCH; plain reads into a record, and into such an array.\n\n");
    printf("| reading | library | record, gcc -O2 | ratio | record, clang -O3 | ratio | numbers, gcc -O2 | ratio | numbers, clang -O3 | ratio | bit vector | ratio |\n");
    printf("|---|---|---|---|---|---|---|---|---|---|---|---|\n");
    for (unsigned i = n_event_rows; i < n_rows; i++) {
        printf("| %s |", rows[i].name);
        own(1, best[i][0]);
        for (unsigned k = 1; k < RUNNERS; k++)
            beside(best[i][0], best[i][k]);
        printf("\n");
    }
}

/* A coarse guard against accidents: no row takes more than LIMIT times what plain by gcc takes, and reading stays ahead of the bit vectors. Events that drop halves, which had no rows before
 * and take up to 9.6 times, have a limit of their own, so that a busy machine fails nobody. */
static void guard(void)
{
    for (unsigned i = 0; library && i < n_rows; i++) {
        char what[160];
        unsigned like = i < n_event_rows ? 1 : 3;
        snprintf(what, sizeof what, "%s, %u held: %.1f ns, plain %.1f ns", rows[i].name, rows[i].halves, best[i][0], best[i][like]);
        check(best[i][0] <= (is_fresh(&rows[i]) ? LIMIT_DROPPING : LIMIT) * best[i][like], what);
        if (i >= n_event_rows) {
            snprintf(what, sizeof what, "%s: %.1f ns, bit vector %.1f ns", rows[i].name, best[i][0], best[i][5]);
            check(best[i][0] <= best[i][5], what);
        }
    }
}

int main(int argc, char **argv)
{
    enum { TABLES, QUICK, ANSWERS, COUNT } mode = TABLES;
    uint64_t seed = 20240601;
    unsigned messages = 0, sequences = 0;
    for (int i = 1; i < argc; i++) {
        const char *more = i + 1 < argc ? argv[i + 1] : "";
        if (strcmp(argv[i], "--quick") == 0)
            mode = QUICK;
        else if (strcmp(argv[i], "--answers") == 0)
            mode = ANSWERS;
        else if (strcmp(argv[i], "--count") == 0)
            mode = COUNT;
        else if (strcmp(argv[i], "--seed") == 0)
            seed = strtoull(more, NULL, 10) | 1, i++;
        else if (strcmp(argv[i], "--messages") == 0)
            messages = (unsigned)strtoul(more, NULL, 10), i++;
        else if (strcmp(argv[i], "--sequences") == 0)
            sequences = (unsigned)strtoul(more, NULL, 10), i++;
        else {
            fprintf(stderr, "bench: %s is not known\n", argv[i]);
            return 2;
        }
    }
    for (unsigned i = 0; i < KEYS; i++)
        keys[i] = (40000 + 997 * i) * 2 + i % 2, sets[i] = 0xFFFE;
    working = aligned_alloc(64, FRESH * STATE);
    make_rows();
    prepare();
    if (mode == COUNT) {
        count();
        return 0;
    }
    if (!messages)
        messages = mode == TABLES ? 400000 : 100000;
    if (!sequences)
        sequences = mode == TABLES ? 6000 : 2000;
    if (!answers_agree(seed, messages, sequences)) {
        printf("The answers differ, so nothing is measured.\n%u passed, %u failed\n", passed, failed);
        return 1;
    }
    if (library)
        print_stack();
    if (mode == QUICK || mode == TABLES)
        measure(mode == QUICK ? 25 : 400);
    if (mode == TABLES)
        measure_many(60);
    if (mode == QUICK)
        guard();
    if (mode == TABLES)
        print_tables();
    printf("%s%u passed, %u failed\n", mode == TABLES ? "\n" : "", passed, failed);
    return failed != 0;
}
