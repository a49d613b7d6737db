/* The words and sentences for refusal numbers, told numbers, whether a call can be followed and what became of a request for the uplink, and the words for a page. No promise speaks of this file: it is plain C beside the proved functions, and touches no state. */
#include <asternhaken.h>

struct row {
    const char *word, *sentence;
};

/* A number more is a row more. A number between rows has none, and is unknown like those behind the last. */
static const struct row refusals[] = {
    [ASTERNHAKEN_ACCEPTED] = { "accepted", "Nothing is refused." },
    [ASTERNHAKEN_REFUSED_MESSAGE_LENGTH] = { "message length", "The message has a wrong length: an NCH message has 20 octets, a FACCH message has 2 to 23." },
    [ASTERNHAKEN_REFUSED_RAN_OUT] = { "bits ran out", "The bits of the message ran out before the releases." },
    [ASTERNHAKEN_REFUSED_ALLOCATION_LENGTH] = { "allocation length", "The length of a mobile allocation is not 1 to 8." },
    [ASTERNHAKEN_REFUSED_REFERENCE] = { "reference", "The reference of a message, of a call reference element, of a joined key or of a PCH entry is above 99,999,999." },
    [ASTERNHAKEN_REFUSED_HOPPING] = { "hopping", "The hopping bit of a channel description is unlike the hopping flag behind it." },
    [ASTERNHAKEN_REFUSED_RANDOM_ENTRIES] = { "random entries", "The NCH message has more random entries than ciphered calls, reduced references included." },
    [ASTERNHAKEN_REFUSED_EMERGENCY_MARKS] = { "emergency marks", "The NCH message has more emergency marks than calls with a channel description." },
    [ASTERNHAKEN_REFUSED_IDENTITY_LENGTH] = { "identity length", "The length of the mobile identity that is paged is not 1 to 9." },
    [ASTERNHAKEN_REFUSED_CLOCK] = { "clock", "The tick is before the last one, or 2^31 ms or more behind it; after such a pause, set up anew." },
    [ASTERNHAKEN_REFUSED_SETUP] = { "setup", "The setup has over 50 keys (of a yard set over 8, or an odd one), a key above 199,999,999, keys that do not strictly rise, a timer outside 1 to 60,000 ms (T3128 too), not one set of group keys for each key, or a group key number that is not 1 to 15." },
    [ASTERNHAKEN_REFUSED_FORM_SIZE] = { "form size", "The written form is over 160 bits, the buffer to write is not of its exact size, or that of a FACCH message is too small or not of 2 to 23 octets." },
    [ASTERNHAKEN_REFUSED_RANGE] = { "range", "A field is out of its range, an absent part or an unused place to be written is not zero, parts of a PCH entry do not fit each other, or bit 22 is above 1." },
    [ASTERNHAKEN_REFUSED_LENGTH] = { "length", "An element, an array to write, a PCH entry or a lent state has a wrong length, or a cause never ends." },
    [ASTERNHAKEN_REFUSED_RAN_OUT_6] = { "bits ran out in Release 6", "The bits of the message ran out inside Release 6." },
    [ASTERNHAKEN_REFUSED_RAN_OUT_7] = { "bits ran out in Release 7", "The bits of the message ran out inside Release 7." },
    [ASTERNHAKEN_REFUSED_NOT_FOR_YARD] = { "not for a yard set", "A yard set listens to the NCH alone: it takes no FACCH or PCH event, no handover, no reconfiguration and no leaving of idle mode." },
};

static const struct row tellings[] = {
    [ASTERNHAKEN_TOLD_NOT_OURS] = { "not ours", "The call is not ours: its key is not subscribed." },
    [ASTERNHAKEN_TOLD_CLEAR] = { "complete, clear", "The call is complete: it is not ciphered, and its channel is given." },
    [ASTERNHAKEN_TOLD_ONE_PIECE] = { "complete, one piece", "The call is complete: it is ciphered, and its channel and VSTK_RAND came in one message." },
    [ASTERNHAKEN_TOLD_JOINED] = { "complete, joined", "The call is complete: the missing half came, and was joined with the one held." },
    [ASTERNHAKEN_TOLD_HALF_STORED] = { "half stored", "One half of the notification came; it is kept until the other comes or it is dropped." },
    [ASTERNHAKEN_TOLD_HALF_HELD] = { "half held already", "The same half came again; the one held and its timer stay." },
    [ASTERNHAKEN_TOLD_NO_CHANNEL] = { "no channel", "The call has no channel description, and it is not a second half." },
    [ASTERNHAKEN_TOLD_UNUSABLE] = { "unusable", "The entry cannot be used: it fits no other case, or its reference disagrees with that of the half held." },
    [ASTERNHAKEN_TOLD_SECOND_BEFORE_FIRST] = { "second before first", "A second half came on the FACCH with no first one held; nothing is stored." },
};

static const struct row followings[] = {
    [ASTERNHAKEN_FOLLOW_NOT_SAID] = { "not said", "Nothing is said of following the call: it is not complete, or not ciphered." },
    [ASTERNHAKEN_FOLLOW_NO_KEY] = { "no key", "The call cannot be followed: its group key is not held." },
    [ASTERNHAKEN_FOLLOW_NO_COUNT] = { "no count", "The call cannot be followed yet: its group key is held, but the cell's count is not known." },
    [ASTERNHAKEN_FOLLOW_WITH_COUNT] = { "follow", "The call can be followed: its group key is held, and the cell's count stands beside." },
};

static const char *const identities[] = {
    [ASTERNHAKEN_IDENTITY_NONE] = "no identity",
    [ASTERNHAKEN_IDENTITY_IMSI] = "IMSI",
    [ASTERNHAKEN_IDENTITY_IMEI] = "IMEI",
    [ASTERNHAKEN_IDENTITY_IMEISV] = "IMEISV",
    [ASTERNHAKEN_IDENTITY_TMSI] = "TMSI",
};

static const char *const channels_first[] = {
    [ASTERNHAKEN_CHANNEL_FIRST_ANY] = "any channel",
    [ASTERNHAKEN_CHANNEL_FIRST_SDCCH] = "SDCCH",
    [ASTERNHAKEN_CHANNEL_FIRST_TCH_F] = "TCH/F",
    [ASTERNHAKEN_CHANNEL_FIRST_TCH_H_OR_F] = "TCH/H or TCH/F",
};

static const char *const paging_causes[] = {
    [ASTERNHAKEN_PAGED_FOR_CALL] = "mobile terminating call",
    [ASTERNHAKEN_PAGED_FOR_SHORT_MESSAGE] = "short message",
};

static const struct row uplink_tellings[] = {
    [ASTERNHAKEN_UPLINK_NOTHING] = { "nothing", "Nothing became of a request for the uplink at this event." },
    [ASTERNHAKEN_UPLINK_GRANTED] = { "granted", "The request is granted: the uplink is free, and the driver may talk." },
    [ASTERNHAKEN_UPLINK_REJECTED] = { "rejected", "The request is rejected: T3128 ran out before the uplink became free." },
    [ASTERNHAKEN_UPLINK_WAITING] = { "waiting", "The request waits for the uplink to become free, until T3128 runs out." },
    [ASTERNHAKEN_UPLINK_ALREADY_WAITING] = { "already waiting", "A request waits already; this one changes nothing." },
};

static const struct row unknown_refusal = { "unknown", "This version of the library does not know this refusal number." };
static const struct row unknown_telling = { "unknown", "This version of the library does not know this told number." };
static const struct row unknown_following = { "unknown", "This version of the library does not know this number for following a call." };
static const struct row unknown_uplink_telling = { "unknown", "This version of the library does not know this number of the uplink." };

static const struct row *row_of(const struct row *rows, size_t n, const struct row *unknown, uint64_t number)
{
    return number < n && rows[number].word ? &rows[number] : unknown;
}

static const char *word_of(const char *const *words, size_t n, uint64_t number) { return number < n ? words[number] : "unknown"; }

static const struct row *refusal_row(uint32_t refusal) { return row_of(refusals, sizeof refusals / sizeof *refusals, &unknown_refusal, refusal); }
static const struct row *told_row(uint64_t told) { return row_of(tellings, sizeof tellings / sizeof *tellings, &unknown_telling, told); }
static const struct row *follow_row(uint64_t follow) { return row_of(followings, sizeof followings / sizeof *followings, &unknown_following, follow); }
static const struct row *uplink_row(uint32_t told) { return row_of(uplink_tellings, sizeof uplink_tellings / sizeof *uplink_tellings, &unknown_uplink_telling, told); }

const char *asternhaken_refusal_word(uint32_t refusal) { return refusal_row(refusal)->word; }
const char *asternhaken_refusal_sentence(uint32_t refusal) { return refusal_row(refusal)->sentence; }
const char *asternhaken_told_word(uint64_t told) { return told_row(told)->word; }
const char *asternhaken_told_sentence(uint64_t told) { return told_row(told)->sentence; }
const char *asternhaken_follow_word(uint64_t follow) { return follow_row(follow)->word; }
const char *asternhaken_follow_sentence(uint64_t follow) { return follow_row(follow)->sentence; }
const char *asternhaken_identity_word(uint64_t kind) { return word_of(identities, sizeof identities / sizeof *identities, kind); }
const char *asternhaken_channel_first_word(uint64_t channel_first) { return word_of(channels_first, sizeof channels_first / sizeof *channels_first, channel_first); }
const char *asternhaken_paging_cause_word(uint64_t paging_cause) { return word_of(paging_causes, sizeof paging_causes / sizeof *paging_causes, paging_cause); }
const char *asternhaken_uplink_word(uint32_t told) { return uplink_row(told)->word; }
const char *asternhaken_uplink_sentence(uint32_t told) { return uplink_row(told)->sentence; }
