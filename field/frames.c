/* What is in one frame of a capture: the link's header, IP, UDP, GSMTAP, and in it a notification or something else. */
#include "frames.h"

#include <pcap/dlt.h>
#include <string.h>

enum {
    PORT = 4729,        /* UDP, of GSMTAP */
    TYPE_UM = 1,        /* GSMTAP type: the air interface */
    HEADER = 16,        /* octets of GSMTAP's header at least */
    ON_SACCH = 0x80,    /* channel type: the slow associated channel of the one that the other bits name */
    BLOCK = 23,         /* octets of a block of layer 2 */
    RR = 0x06,          /* protocol discriminator: radio resources */
    NOTIFICATION = 0x20 /* message type: NOTIFICATION/NCH */
};

/* Octets that were captured, and how many there were when they were sent. */
struct piece {
    const uint8_t *at;
    size_t captured, sent;
};

static uint32_t number(const uint8_t *at, size_t octets)
{
    uint32_t n = 0;
    for (size_t i = 0; i < octets; i++) n = n << 8 | at[i];
    return n;
}

/* Takes a header of so many octets off; answers nothing where it is not there whole. */
static int take(struct piece *piece, size_t octets)
{
    if (piece->captured < octets) return 0;
    piece->at += octets;
    piece->captured -= octets;
    piece->sent -= octets;
    return 1;
}

/* Where a header is not there whole: it was clipped, or it was never sent. */
static enum kind short_of(const struct piece *piece, size_t octets)
{
    return piece->sent >= octets ? KIND_CLIPPED : KIND_BROKEN;
}

/* What is sent ends here, whatever padding the link put behind it. */
static int end_at(struct piece *piece, size_t octets)
{
    if (octets > piece->sent) return 0;
    piece->sent = octets;
    if (piece->captured > octets) piece->captured = octets;
    return 1;
}

/* ---- The message ---- */

static int may_have_nch(uint32_t type)
{
    return type == 0 || type == 1 || type == 2 || type == 4 || type == 5; /* unknown, BCCH, CCCH, AGCH, PCH: which one it is varies from tool to tool */
}

/* The first octet of NOTIFICATION/FACCH: short protocol discriminator 0, message type 1, and a short header of layer 2, whose last bit is 0 where that of an address is 1. */
static int begins_facch(uint8_t octet)
{
    return (octet & 0xfd) == 0x04;
}

/* On the SACCH two octets of layer 1, power and timing advance, stand before the block; a tool may have left them out. */
static size_t layer_1(const struct piece *piece, uint32_t type)
{
    return type & ON_SACCH && piece->sent >= BLOCK ? 2 : 0;
}

static enum kind message(struct piece *piece, struct frame *frame)
{
    uint32_t type = frame->channel_type;
    if (may_have_nch(type)) {
        if (piece->sent < 3) return KIND_OTHER;
        if (piece->captured < 3) return KIND_CLIPPED;
        if (piece->at[1] != RR || piece->at[2] != NOTIFICATION) return KIND_OTHER;
        take(piece, 3);
        frame->kind = KIND_NCH;
    } else if (type & ON_SACCH || type == 9 || type == 10) { /* FACCH/F, FACCH/H */
        size_t before = layer_1(piece, type);
        if (piece->sent < before + 1) return KIND_OTHER;
        if (piece->captured < before + 1) return KIND_CLIPPED;
        if (!begins_facch(piece->at[before])) return KIND_OTHER;
        take(piece, before);
        frame->kind = KIND_FACCH;
    } else return KIND_OTHER;
    if (piece->captured < piece->sent) return KIND_CLIPPED;
    frame->message = piece->at;
    frame->length = piece->captured;
    return frame->kind;
}

static enum kind gsmtap(struct piece *piece, struct frame *frame)
{
    if (piece->captured < 2) return short_of(piece, 2);
    if (piece->at[0] != 2) return KIND_VERSION;
    const uint8_t *at = piece->at;
    size_t header = (size_t)4 * at[1];
    if (header < HEADER) return KIND_BROKEN;
    if (!take(piece, header)) return short_of(piece, header);
    if (at[2] != TYPE_UM) return KIND_NOT_UM;
    uint32_t arfcn = number(at + 4, 2);
    if (arfcn & 0x4000) return KIND_UPLINK;
    frame->arfcn = arfcn & 0x3fff;
    frame->is_pcs = arfcn >> 15;
    frame->frame_number = number(at + 8, 4);
    frame->timeslot = at[3];
    frame->signal_dbm = (int8_t)at[6];
    frame->channel_type = at[12];
    return message(piece, frame);
}

/* ---- IP and UDP ---- */

static enum kind udp(struct piece *piece, struct frame *frame)
{
    if (piece->captured < 8) return short_of(piece, 8);
    if (number(piece->at, 2) != PORT && number(piece->at + 2, 2) != PORT) return KIND_FOREIGN;
    size_t length = number(piece->at + 4, 2);
    if (length < 8 || !end_at(piece, length)) return KIND_BROKEN;
    take(piece, 8);
    return gsmtap(piece, frame);
}

static enum kind ip_4(struct piece *piece, struct frame *frame)
{
    if (piece->captured < 20) return short_of(piece, 20);
    if (piece->at[0] >> 4 != 4) return KIND_BROKEN;
    size_t header = (size_t)4 * (piece->at[0] & 15), length = number(piece->at + 2, 2);
    uint32_t fragment = number(piece->at + 6, 2) & 0x3fff, protocol = piece->at[9];
    if (protocol != 17) return KIND_FOREIGN;
    if (fragment) return KIND_FRAGMENT;
    if (length == 0) length = piece->sent; /* left to the network card, which was not reached yet */
    if (header < 20 || length < header || !end_at(piece, length)) return KIND_BROKEN;
    if (!take(piece, header)) return KIND_CLIPPED;
    return udp(piece, frame);
}

static enum kind ip_6(struct piece *piece, struct frame *frame)
{
    if (piece->captured < 40) return short_of(piece, 40);
    if (piece->at[0] >> 4 != 6) return KIND_BROKEN;
    size_t length = number(piece->at + 4, 2);
    uint32_t next = piece->at[6];
    if (next == 44) return KIND_FRAGMENT;
    if (next != 17) return KIND_FOREIGN;
    take(piece, 40);
    if (!end_at(piece, length)) return KIND_BROKEN;
    return udp(piece, frame);
}

static enum kind ip(struct piece *piece, struct frame *frame)
{
    if (piece->captured < 1) return short_of(piece, 1);
    switch (piece->at[0] >> 4) {
    case 4: return ip_4(piece, frame);
    case 6: return ip_6(piece, frame);
    default: return KIND_BROKEN;
    }
}

/* ---- The link ---- */

/* What an Ethernet type says is behind it, with tags of virtual networks before it. */
static enum kind by_type(struct piece *piece, uint32_t type, struct frame *frame)
{
    while (type == 0x8100 || type == 0x88a8) {
        if (piece->captured < 4) return short_of(piece, 4);
        type = number(piece->at + 2, 2);
        take(piece, 4);
    }
    if (type == 0x0800) return ip_4(piece, frame);
    if (type == 0x86dd) return ip_6(piece, frame);
    return KIND_FOREIGN;
}

/* A header of so many octets, in which an Ethernet type stands at a place. */
static enum kind typed(struct piece *piece, size_t header, size_t place, struct frame *frame)
{
    const uint8_t *at = piece->at;
    if (!take(piece, header)) return short_of(piece, header);
    return by_type(piece, number(at + place, 2), frame);
}

/* The loopback's four octets name a family, in the order of the machine that captured; the number for IPv6 varies from system to system, so IP itself is asked. */
static enum kind loopback(struct piece *piece, struct frame *frame)
{
    if (!take(piece, 4)) return short_of(piece, 4);
    return ip(piece, frame);
}

static enum kind linked(int link, struct piece *piece, struct frame *frame)
{
    switch (link) {
    case DLT_EN10MB: return typed(piece, 14, 12, frame);
    case DLT_LINUX_SLL: return typed(piece, 16, 14, frame);
    case DLT_LINUX_SLL2: return typed(piece, 20, 0, frame);
    case DLT_NULL:
    case DLT_LOOP: return loopback(piece, frame);
    case DLT_RAW:
    case DLT_IPV4:
    case DLT_IPV6: return ip(piece, frame);
    case DLT_GSMTAP_UM:
    case DLT_GSMTAP_ABIS: return gsmtap(piece, frame);
    default: return KIND_FOREIGN;
    }
}

int link_is_known(int link)
{
    static const int known[] = { DLT_EN10MB, DLT_LINUX_SLL, DLT_LINUX_SLL2, DLT_NULL, DLT_LOOP, DLT_RAW, DLT_IPV4, DLT_IPV6, DLT_GSMTAP_UM, DLT_GSMTAP_ABIS };
    for (size_t i = 0; i < sizeof known / sizeof *known; i++)
        if (known[i] == link) return 1;
    return 0;
}

void look_at(int link, const uint8_t *octets, size_t captured, size_t sent, struct frame *frame)
{
    struct piece piece = { octets, captured, sent < captured ? captured : sent };
    memset(frame, 0, sizeof *frame);
    frame->kind = linked(link, &piece, frame);
}

/* ---- Words ---- */

const char *kind_words(enum kind kind)
{
    static const char *const words[KINDS] = {
        [KIND_NCH] = "on the NCH",
        [KIND_FACCH] = "on the FACCH or SACCH",
        [KIND_OTHER] = "other messages of a cell",
        [KIND_UPLINK] = "sent by mobile stations",
        [KIND_NOT_UM] = "GSMTAP of another interface",
        [KIND_VERSION] = "GSMTAP of another version than 2",
        [KIND_CLIPPED] = "clipped by the recording",
        [KIND_BROKEN] = "with headers that contradict each other",
        [KIND_FOREIGN] = "other traffic, no GSMTAP",
        [KIND_FRAGMENT] = "fragments of packets",
    };
    return words[kind];
}

const char *channel_type_name(uint32_t channel_type)
{
    static const char *const names[] = { "UNKNOWN", "BCCH", "CCCH", "RACH", "AGCH", "PCH", "SDCCH", "SDCCH/4", "SDCCH/8", "FACCH/F", "FACCH/H" };
    static const char *const slow[] = { "LSACCH", "SACCH/4", "SACCH/8", "SACCH/F", "SACCH/H" };
    uint32_t base = channel_type & 0x7f;
    if (channel_type & ON_SACCH) return base >= 6 && base <= 10 ? slow[base - 6] : "SACCH";
    return base < sizeof names / sizeof *names ? names[base] : "?";
}
