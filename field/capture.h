/* A capture: a file of frames with their times, read by libpcap. */
#ifndef CAPTURE_H
#define CAPTURE_H

#include "frames.h"

#include <pcap/pcap.h>
#include <stdint.h>

struct capture {
    const char *name;
    pcap_t *pcap;
    int link;
    int is_shown;            /* how far it is, on a terminal */
    uint64_t size;           /* of the file in octets, or 0 where it is not known */
    uint64_t count;          /* frames so far: the number of the present one, from 1 */
    uint64_t counts[KINDS];  /* of each kind */
    uint64_t went_back;      /* frames whose time is before that of the frame before */
    int64_t began_s;         /* the first frame's time, in seconds and microseconds since 1970 */
    uint32_t began_us;
    int64_t now_s;           /* the present frame's time, as it stands in the file */
    uint32_t now_us;
    uint64_t ms;             /* the present frame's time from the first one's on; it never goes back */
    char damage[PCAP_ERRBUF_SIZE + 32]; /* why it ends before its end, or nothing */
};

/* Opens a file, or standard input for "-". Answers 0, or says on standard error why not, and answers 2. */
int capture_open(struct capture *capture, const char *name);

/* Goes to the next frame that carries a notification, and counts the others. Answers 0 at the end, or where the file is damaged. */
int capture_next(struct capture *capture, struct frame *frame);

void capture_close(struct capture *capture);

#endif
