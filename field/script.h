/* The script of a simulated cell: calls, what is sent of them and when, and what goes wrong. */
#ifndef SCRIPT_H
#define SCRIPT_H

#include <asternhaken.h>
#include <stdint.h>
#include <stdio.h>

enum { SCRIPT_NAME = 24, SCRIPT_PARTS = 256, FOREVER = 2147483647 };

enum on { ON_NCH, ON_FACCH, ON_SACCH };

/* What is sent of a call in one message. */
enum half { HALF_FIRST = 1, HALF_SECOND = 2, HALF_WHOLE = 4, HALF_REDUCED = 8 /* a second half by a reduced reference */ };

struct script_call {
    char name[SCRIPT_NAME + 1];
    struct asternhaken_call call;
    uint64_t vstk_rand;
    int is_emergency;
};

/* A call is sent every so many ms in a stretch of time, its second half so much later. */
struct sending {
    const struct script_call *call;
    enum on on;
    unsigned first, second; /* halves, or 0 */
    uint64_t from, to, every, gap;
    uint32_t arfcn;
};

enum wrong { LOSE, REPEAT, LATE };

/* What happens to messages of a call in a stretch of time. */
struct effect {
    enum wrong wrong;
    unsigned halves;
    const struct script_call *call;
    uint64_t from, to, by, times;
};

/* From a time on the cell's messages have another list number or count; -1 is none. */
struct change {
    int is_count;
    uint32_t arfcn;
    uint64_t at;
    int value;
};

/* Octets that are sent as they stand. */
struct octets {
    enum on on;
    uint64_t at;
    uint32_t arfcn;
    uint8_t octet[ASTERNHAKEN_FACCH_LONGEST];
    size_t count;
};

struct script {
    struct script_call call[SCRIPT_PARTS];
    struct sending sending[SCRIPT_PARTS];
    struct effect effect[SCRIPT_PARTS];
    struct change change[SCRIPT_PARTS];
    struct octets octets[SCRIPT_PARTS];
    size_t calls, sendings, effects, changes, n_octets;
    uint32_t arfcn, channel_type; /* that of NCH blocks */
    int64_t begin;                /* seconds since 1970 */
};

/* Reads a script. Answers 0, or says on standard error which line is wrong and why, and answers 2. */
int script_read(struct script *script, FILE *file, const char *name);

/* The list number, or the count, of a cell at a time; -1 for none. */
int script_value(const struct script *script, int is_count, uint32_t arfcn, uint64_t at);

#endif
