/* What is in one frame of a capture. */
#ifndef FRAMES_H
#define FRAMES_H

#include <stddef.h>
#include <stdint.h>

/* What a frame turned out to be. Only the first two carry a message for the receiver; every kind is counted and named. */
enum kind {
    KIND_NCH,      /* NOTIFICATION/NCH: the message is its NT/N Rest Octets */
    KIND_FACCH,    /* NOTIFICATION/FACCH, on a FACCH or a SACCH */
    KIND_OTHER,    /* another message of the cell, or speech */
    KIND_UPLINK,   /* sent by a mobile station */
    KIND_NOT_UM,   /* GSMTAP of another interface, or bursts */
    KIND_VERSION,  /* GSMTAP of another version than 2 */
    KIND_CLIPPED,  /* the recording left out the end of the frame */
    KIND_BROKEN,   /* its headers contradict each other */
    KIND_FOREIGN,  /* no GSMTAP: other traffic */
    KIND_FRAGMENT, /* a piece of a packet */
    KINDS
};

/* A frame of a notification. Of the other kinds only the kind is said. */
struct frame {
    enum kind kind;
    const uint8_t *message; /* inside the octets that were looked at */
    size_t length;
    uint32_t arfcn;        /* 0 to 16383 */
    uint32_t is_pcs;       /* of the 1900 MHz band, whose numbers are also those of another */
    uint32_t frame_number; /* GSM's own */
    uint32_t timeslot, channel_type;
    int signal_dbm;
};

/* A link type, as libpcap numbers it, is one that frames can be looked at in. */
int link_is_known(int link);

/* Looks at a frame of which so many octets were captured, and which had so many when it was sent. */
void look_at(int link, const uint8_t *octets, size_t captured, size_t sent, struct frame *frame);

/* What frames of a kind are called in a count: "7 on the NCH". */
const char *kind_words(enum kind kind);

/* The name of a GSMTAP channel type, as Wireshark has it. */
const char *channel_type_name(uint32_t channel_type);

#endif
