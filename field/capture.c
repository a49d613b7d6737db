/* A capture: a file of frames with their times, read by libpcap. */
#include "capture.h"

#include "show.h"

#include <inttypes.h>
#include <stdio.h>
#include <string.h>
#include <sys/stat.h>
#include <unistd.h>

enum {
    OFTEN = 1 << 16,                /* frames from one look at how far it is to the next */
    LONGEST = 1000000000,           /* seconds from the first frame on: no recording is longer, and a time beyond it is damaged */
    MICROSECONDS = 1000000
};

/* ---- How far it is ---- */

static void show_progress(const struct capture *capture)
{
    long at = capture->size ? ftell(pcap_file(capture->pcap)) : -1;
    if (at >= 0) fprintf(stderr, "\r%" PRIu64 " frames, %d %%", capture->count, (int)(100 * (uint64_t)at / capture->size));
    else fprintf(stderr, "\r%" PRIu64 " frames", capture->count);
}

static void clear_progress(const struct capture *capture)
{
    if (capture->is_shown && capture->count >= OFTEN) fprintf(stderr, "\r%40s\r", "");
}

/* ---- Opening ---- */

static uint64_t size_of(pcap_t *pcap)
{
    struct stat about;
    FILE *file = pcap_file(pcap);
    if (!file || fstat(fileno(file), &about) || !S_ISREG(about.st_mode) || about.st_size <= 0) return 0;
    return (uint64_t)about.st_size;
}

static int open_known(struct capture *capture, const char *name, char *why)
{
    capture->pcap = pcap_open_offline(name, why);
    if (!capture->pcap) return 0;
    capture->link = pcap_datalink(capture->pcap);
    if (link_is_known(capture->link)) return 1;
    const char *link = pcap_datalink_val_to_name(capture->link);
    snprintf(why, PCAP_ERRBUF_SIZE, "its link type is %s (%d); frames are looked at in Ethernet, raw IP, loopback, Linux cooked and GSMTAP itself", link ? link : "unknown", capture->link);
    pcap_close(capture->pcap);
    return 0;
}

int capture_open(struct capture *capture, const char *name)
{
    char why[PCAP_ERRBUF_SIZE] = "";
    memset(capture, 0, sizeof *capture);
    capture->name = strcmp(name, "-") ? name : "standard input";
    if (!open_known(capture, name, why)) {
        const char *rest = strncmp(why, name, strlen(name)) ? why : why + strlen(name) + 2 * (why[strlen(name)] == ':'); /* libpcap names some files itself */
        complain("%s: %s", capture->name, rest);
        capture->pcap = NULL;
        return 2;
    }
    capture->size = size_of(capture->pcap);
    capture->is_shown = isatty(STDERR_FILENO);
    return 0;
}

void capture_close(struct capture *capture)
{
    if (capture->pcap) pcap_close(capture->pcap);
    capture->pcap = NULL;
}

/* ---- Frames ---- */

/* Takes the frame's time. One before the last is taken as the last: the receiver's clock does not go back. */
static void take_time(struct capture *capture, const struct pcap_pkthdr *header)
{
    int64_t s = header->ts.tv_sec;
    uint32_t us = (uint32_t)((uint64_t)header->ts.tv_usec % MICROSECONDS);
    capture->now_s = s;
    capture->now_us = us;
    if (capture->count == 1) {
        capture->began_s = s;
        capture->began_us = us;
    }
    uint64_t whole = (uint64_t)s - (uint64_t)capture->began_s;
    if (s < capture->began_s || (whole == 0 && us < capture->began_us)) {
        capture->went_back++;
        return;
    }
    if (whole > LONGEST) whole = LONGEST;
    uint64_t ms = (whole * MICROSECONDS + us - capture->began_us) / 1000;
    if (ms < capture->ms) capture->went_back++;
    else capture->ms = ms;
}

static void end_of(struct capture *capture, int result)
{
    clear_progress(capture);
    if (result == PCAP_ERROR) snprintf(capture->damage, sizeof capture->damage, "behind frame %" PRIu64 ": %s", capture->count, pcap_geterr(capture->pcap));
}

int capture_next(struct capture *capture, struct frame *frame)
{
    struct pcap_pkthdr *header;
    const uint8_t *octets;
    for (;;) {
        int result = pcap_next_ex(capture->pcap, &header, &octets);
        if (result != 1) {
            end_of(capture, result);
            return 0;
        }
        capture->count++;
        take_time(capture, header);
        look_at(capture->link, octets, header->caplen, header->len, frame);
        capture->counts[frame->kind]++;
        if (capture->is_shown && capture->count % OFTEN == 0) show_progress(capture);
        if (frame->kind == KIND_NCH || frame->kind == KIND_FACCH) return 1;
    }
}
