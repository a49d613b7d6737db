/* Writing a capture: a message as GSMTAP in UDP, on a link. */
#ifndef DUMP_H
#define DUMP_H

#include <pcap/pcap.h>
#include <stdint.h>

struct dump {
    int link;
    pcap_t *pcap;
    pcap_dumper_t *file;
};

/* A block of the air interface, and where it was heard. */
struct block {
    uint8_t octet[32];
    size_t count;
    uint32_t arfcn, timeslot, channel_type, frame_number;
};

/* The link type of a word (raw, ethernet, loopback, cooked, gsmtap), or -1. */
int link_of(const char *word);

/* Begins a capture on standard output. Answers 0, or complains and answers 2. */
int dump_open(struct dump *dump, int link);

/* A block more, at a time in seconds and microseconds since 1970. */
void dump_put(struct dump *dump, int64_t s, uint32_t us, const struct block *block);

/* Answers 0, or complains and answers 2. */
int dump_close(struct dump *dump);

#endif
