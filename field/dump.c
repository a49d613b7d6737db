/* Writing a capture: a message as GSMTAP in UDP, on a link. */
#include "dump.h"

#include "show.h"

#include <errno.h>
#include <stdio.h>
#include <string.h>

enum { GSMTAP = 16, UDP = 8, IP = 20, LINK_MOST = 16, PORT = 4729 };

/* A frame as it is put together. */
struct frame_out {
    uint8_t octet[LINK_MOST + IP + UDP + GSMTAP + 32];
    size_t count;
};

static void put(struct frame_out *frame, uint32_t value, size_t octets)
{
    for (size_t i = octets; i-- > 0;) frame->octet[frame->count++] = (uint8_t)(value >> 8 * i);
}

int link_of(const char *word)
{
    static const struct {
        const char *word;
        int link;
    } links[] = { { "raw", DLT_RAW }, { "ethernet", DLT_EN10MB }, { "loopback", DLT_NULL }, { "cooked", DLT_LINUX_SLL }, { "gsmtap", DLT_GSMTAP_UM } };
    if (!word) return DLT_RAW;
    for (size_t i = 0; i < sizeof links / sizeof *links; i++)
        if (!strcmp(word, links[i].word)) return links[i].link;
    return -1;
}

static void put_link(struct frame_out *frame, int link)
{
    static const uint8_t family[4] = { 2, 0, 0, 0 }; /* IPv4, as a machine with the low octet first has it */
    switch (link) {
    case DLT_EN10MB:
        for (int i = 0; i < 12; i++) put(frame, 0, 1);
        put(frame, 0x0800, 2);
        break;
    case DLT_NULL:
        memcpy(frame->octet, family, sizeof family);
        frame->count = sizeof family;
        break;
    case DLT_LINUX_SLL:
        for (int i = 0; i < 7; i++) put(frame, 0, 2);
        put(frame, 0x0800, 2);
        break;
    default: break;
    }
}

/* The sum over IP's header, in pairs of octets. */
static uint32_t checksum(const uint8_t *header)
{
    uint32_t sum = 0;
    for (int i = 0; i < IP; i += 2) sum += (uint32_t)header[i] << 8 | header[i + 1];
    while (sum >> 16) sum = (sum & 0xffff) + (sum >> 16);
    return ~sum & 0xffff;
}

static void put_ip(struct frame_out *frame, size_t behind)
{
    size_t begin = frame->count;
    put(frame, 0x4500, 2);
    put(frame, (uint32_t)(IP + behind), 2);
    put(frame, 0x00004000, 4); /* not to be cut into fragments */
    put(frame, 64 << 8 | 17, 2);
    put(frame, 0, 2);
    put(frame, 0x7f000001, 4);
    put(frame, 0x7f000001, 4);
    uint32_t sum = checksum(frame->octet + begin);
    frame->octet[begin + 10] = (uint8_t)(sum >> 8);
    frame->octet[begin + 11] = (uint8_t)sum;
}

static void put_udp(struct frame_out *frame, size_t behind)
{
    put(frame, PORT, 2);
    put(frame, PORT, 2);
    put(frame, (uint32_t)(UDP + behind), 2);
    put(frame, 0, 2); /* no checksum */
}

static void put_gsmtap(struct frame_out *frame, const struct block *block)
{
    put(frame, 0x02040100 | block->timeslot, 4); /* version 2, four words of header, the air interface */
    put(frame, block->arfcn, 2);
    put(frame, 0, 2);
    put(frame, block->frame_number, 4);
    put(frame, block->channel_type << 24, 4);
    memcpy(frame->octet + frame->count, block->octet, block->count);
    frame->count += block->count;
}

int dump_open(struct dump *dump, int link)
{
    dump->link = link;
    dump->pcap = pcap_open_dead(link, 65535);
    dump->file = dump->pcap ? pcap_dump_fopen(dump->pcap, stdout) : NULL;
    if (dump->file) return 0;
    complain("standard output: %s", dump->pcap ? pcap_geterr(dump->pcap) : "no memory");
    if (dump->pcap) pcap_close(dump->pcap);
    return 2;
}

void dump_put(struct dump *dump, int64_t s, uint32_t us, const struct block *block)
{
    struct frame_out frame;
    struct pcap_pkthdr header;
    frame.count = 0;
    put_link(&frame, dump->link);
    if (dump->link != DLT_GSMTAP_UM) {
        put_ip(&frame, UDP + GSMTAP + block->count);
        put_udp(&frame, GSMTAP + block->count);
    }
    put_gsmtap(&frame, block);
    memset(&header, 0, sizeof header);
    header.ts.tv_sec = s;
    header.ts.tv_usec = us;
    header.caplen = header.len = (bpf_u_int32)frame.count;
    pcap_dump((u_char *)dump->file, &header, frame.octet);
}

int dump_close(struct dump *dump)
{
    int status = pcap_dump_flush(dump->file) || ferror(pcap_dump_file(dump->file)) ? 2 : 0;
    if (status) complain("standard output: %s", strerror(errno));
    pcap_dump_close(dump->file);
    pcap_close(dump->pcap);
    return status;
}
