/* asternhaken cell: a simulated cell. Notifications of calls over time, written by the library's proved writers, with halves lost, repeated or late as a script says. */
#include "commands.h"
#include "dump.h"
#include "options.h"
#include "script.h"
#include "show.h"

#include <errno.h>
#include <stdlib.h>
#include <string.h>
#include <unistd.h>

enum { BLOCK = 23, HEAD = 3, FACCH_FULL = 9, ON_SACCH_BIT = 0x80 };

static const char help[] =
    "asternhaken cell [--link raw|ethernet|loopback|cooked|gsmtap] SCRIPT|- > day.pcap\n"
    "\n"
    "Writes a capture of a simulated cell: notifications of calls over time, with halves lost, repeated or late. Lines of a script, times in ms:\n"
    "\n"
    "  arfcn 12                            the lines behind it are of the cell on this ARFCN (1)\n"
    "  begin 2026-01-31 06:00:00           when 0 ms is, in UTC\n"
    "  call NAME 4711/VBS channel=0a4123   a call; also allocation=HEX or list=HEX, priority=N, cipher=N, rand=HEX, ack, emergency\n"
    "  send NAME on nch as halves from 0 to 60000 every 480 gap 240\n"
    "                                      on nch, facch or sacch; as halves, whole, first, second or reduced: halves whose second has a reduced reference\n"
    "  lose second of NAME from 3000 to 9000       first, second, whole or all, of those that were to be sent then\n"
    "  repeat first of NAME times 2 by 20          each comes so many times more, so many ms apart\n"
    "  late second of NAME by 7000                 each comes so many ms later\n"
    "  nln 1 at 0, count 2 at 0            list number and CELL_GLOBAL_COUNT from then on, - for none\n"
    "  nch 1000 HEX, facch 1000 HEX, sacch 1000 HEX    these octets\n"
    "  type 4                              GSMTAP's channel type of NCH blocks (2, CCCH)\n";

/* A message that is sent. */
struct event {
    uint64_t at;
    size_t order; /* of making: those of one time stay in it */
    enum on on;
    unsigned half;
    uint32_t arfcn;
    const struct script_call *call; /* or nothing, and octets */
    const struct octets *octets;
};

struct events {
    struct event *event;
    size_t count, room;
};

/* ---- What is sent when ---- */

static int add(struct events *events, struct event event)
{
    if (events->count == events->room) {
        size_t room = events->room ? 2 * events->room : 256;
        struct event *more = realloc(events->event, room * sizeof *more);
        if (!more) return 0;
        events->event = more;
        events->room = room;
    }
    event.order = events->count;
    events->event[events->count++] = event;
    return 1;
}

static int applies(const struct effect *effect, const struct event *event)
{
    return effect->call == event->call && effect->halves & event->half && event->at >= effect->from && event->at < effect->to;
}

/* One message, as far as nothing goes wrong with it. */
static int add_scripted(struct events *events, const struct script *script, struct event event)
{
    uint64_t late = 0, times = 0, by = 0;
    for (size_t i = 0; i < script->effects; i++) {
        const struct effect *effect = &script->effect[i];
        if (!applies(effect, &event)) continue;
        if (effect->wrong == LOSE) return 1;
        if (effect->wrong == LATE) late += effect->by;
        else times += effect->times, by = effect->by;
    }
    event.at += late;
    for (uint64_t i = 0; i <= times; i++, event.at += by)
        if (!add(events, event)) return 0;
    return 1;
}

static int add_sending(struct events *events, const struct script *script, const struct sending *sending)
{
    struct event event = { 0, 0, sending->on, 0, sending->arfcn, sending->call, NULL };
    for (uint64_t at = sending->from; at < sending->to; at += sending->every) {
        event.at = at;
        event.half = sending->first;
        if (!add_scripted(events, script, event)) return 0;
        event.at = at + sending->gap;
        event.half = sending->second;
        if (sending->second && !add_scripted(events, script, event)) return 0;
    }
    return 1;
}

static int by_time(const void *one, const void *other)
{
    const struct event *a = one, *b = other;
    if (a->at != b->at) return a->at < b->at ? -1 : 1;
    return a->order < b->order ? -1 : 1;
}

static int add_all(struct events *events, const struct script *script)
{
    for (size_t i = 0; i < script->sendings; i++)
        if (!add_sending(events, script, &script->sending[i])) return 0;
    for (size_t i = 0; i < script->n_octets; i++) {
        const struct octets *octets = &script->octets[i];
        if (!add(events, (struct event){ octets->at, 0, octets->on, 0, octets->arfcn, NULL, octets })) return 0;
    }
    if (events->count) qsort(events->event, events->count, sizeof *events->event, by_time);
    return 1;
}

/* ---- Messages ---- */

/* A call as its half has it: only a first half or a whole one has a channel. */
static struct asternhaken_call call_in(const struct event *event)
{
    struct asternhaken_call call = event->call->call;
    if (event->half & (HALF_FIRST | HALF_WHOLE)) return call;
    call.channel_given = call.channel = call.hops = call.short_list = call.allocation_octets = call.frequencies = 0;
    return call;
}

static uint32_t nch_octets(const struct script *script, const struct event *event, uint8_t octets[ASTERNHAKEN_NCH_LENGTH])
{
    struct asternhaken_nch_message m;
    int nln = script_value(script, 0, event->arfcn, event->at), count = script_value(script, 1, event->arfcn, event->at);
    memset(&m, 0, sizeof m);
    m.nln_given = nln >= 0;
    m.nln = nln >= 0 ? (uint64_t)nln : 0;
    if (event->half == HALF_REDUCED) {
        m.n_reduced = 1;
        m.reduced[0] = (struct asternhaken_reduced){ event->call->call.call_reference, event->call->call.vgcs };
    } else {
        m.n_calls = 1;
        m.calls[0] = call_in(event);
    }
    if (count >= 0) m.count_given = 1, m.cell_global_count = (uint64_t)count;
    if (event->call->call.cipher_key_number) {
        m.n_random = 1;
        m.random[0].segment_id = event->half == HALF_SECOND || event->half == HALF_REDUCED;
        m.random[0].rand_given = event->half != HALF_FIRST;
        m.random[0].vstk_rand = m.random[0].rand_given ? event->call->vstk_rand : 0;
    }
    m.release_6_given = m.count_given || m.n_random || m.n_reduced;
    if (event->call->is_emergency && m.n_calls && m.calls[0].channel_given) m.release_7_given = m.n_emergency_marks = m.emergency_marks[0] = 1;
    return asternhaken_nch_encode(&m, octets, ASTERNHAKEN_NCH_LENGTH);
}

static uint32_t facch_octets(const struct script *script, const struct event *event, uint8_t *octets, size_t n)
{
    struct asternhaken_facch_message m;
    int count = script_value(script, 1, event->arfcn, event->at);
    memset(&m, 0, sizeof m);
    m.call = call_in(event);
    if (count >= 0) m.count_given = 1, m.cell_global_count = (uint64_t)count;
    if (event->call->call.cipher_key_number && event->half != HALF_FIRST) m.rand_given = 1, m.vstk_rand = event->call->vstk_rand;
    m.release_6_given = m.count_given || m.rand_given;
    m.release_7_given = m.emergency = event->call->is_emergency;
    uint32_t result = asternhaken_facch_encode(&m, octets, n);
    octets[0] = 0x04; /* the writer leaves the first octet to whoever sends */
    return result;
}

/* The octets of an event behind what its block has before them. */
static uint32_t octets_for(const struct script *script, const struct event *event, uint8_t *octets, size_t n)
{
    memset(octets, 0x2b, n);
    if (!event->octets) return event->on == ON_NCH ? nch_octets(script, event, octets) : facch_octets(script, event, octets, n);
    memcpy(octets, event->octets->octet, event->octets->count < n ? event->octets->count : n);
    return 0;
}

static uint32_t block_for(const struct script *script, const struct event *event, struct block *block)
{
    size_t before = event->on == ON_NCH ? HEAD : event->on == ON_SACCH ? 2 : 0;
    static const uint8_t head[HEAD] = { 0x09, 0x06, 0x20 }; /* pseudo length: the two octets behind it, radio resources, NOTIFICATION/NCH */
    memset(block, 0, sizeof *block);
    if (event->on == ON_NCH) memcpy(block->octet, head, sizeof head);
    uint32_t result = octets_for(script, event, block->octet + before, BLOCK - before);
    block->count = event->octets && event->octets->count + before < BLOCK ? event->octets->count + before : BLOCK;
    block->arfcn = event->arfcn;
    block->frame_number = (uint32_t)(event->at * 26 / 120 % 2715648);
    block->channel_type = event->on == ON_NCH ? script->channel_type : event->on == ON_FACCH ? FACCH_FULL : FACCH_FULL | ON_SACCH_BIT;
    if (event->on != ON_NCH && event->call) block->timeslot = (uint32_t)(event->call->call.channel >> 16 & 7);
    return result;
}

/* ---- The command ---- */

static int write_all(const struct script *script, const struct events *events, int link)
{
    struct dump dump;
    struct block block;
    if (dump_open(&dump, link)) return 2;
    for (size_t i = 0; i < events->count; i++) {
        const struct event *event = &events->event[i];
        uint32_t refusal = ASTERNHAKEN_REFUSAL(block_for(script, event, &block));
        if (refusal) {
            complain("call %s cannot be sent so at %s: %s", event->call->name, seconds(event->at), asternhaken_refusal_sentence(refusal));
            dump_close(&dump);
            return 2;
        }
        dump_put(&dump, script->begin + (int64_t)(event->at / 1000), (uint32_t)(event->at % 1000 * 1000), &block);
    }
    return dump_close(&dump);
}

static int simulate(FILE *file, const char *name, int link)
{
    struct script *script = calloc(1, sizeof *script);
    struct events events = { NULL, 0, 0 };
    int status = script ? script_read(script, file, name) : 2;
    if (!status && !add_all(&events, script)) {
        complain("there is no memory for so many messages");
        status = 2;
    }
    if (!status) status = write_all(script, &events, link);
    free(events.event);
    free(script);
    return status;
}

int command_cell(int argc, char **argv)
{
    struct options options;
    int status = options_take(&options, argc, argv, "l", help);
    if (status) return status == 1 ? 0 : 2;
    int link = link_of(options.link);
    if (link < 0) complain("--link is raw, ethernet, loopback, cooked or gsmtap, not '%s'", options.link);
    else if (options.n_words != 1) complain("cell takes one script; asternhaken cell --help says what stands in it");
    else if (isatty(STDOUT_FILENO)) complain("a capture is no text: write it to a file, as in > day.pcap");
    else status = 1;
    if (!status) return 2;
    int is_standard = !strcmp(options.words[0], "-");
    FILE *file = is_standard ? stdin : fopen(options.words[0], "r");
    if (!file) {
        complain("%s: %s", options.words[0], strerror(errno));
        return 2;
    }
    status = simulate(file, is_standard ? "standard input" : options.words[0], link);
    if (!is_standard) fclose(file);
    return status;
}
