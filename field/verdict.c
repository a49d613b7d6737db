/* Why a call did not show, in sentences. */
#include "verdict.h"

#include "names.h"
#include "show.h"

#include <stdarg.h>
#include <stdio.h>
#include <string.h>

#if defined __GNUC__
__attribute__((format(printf, 2, 3)))
#endif
static void say(struct sentences *sentences, const char *text, ...)
{
    va_list arguments;
    if (sentences->count == SENTENCES) return;
    va_start(arguments, text);
    vsnprintf(sentences->line[sentences->count++], SENTENCE, text, arguments);
    va_end(arguments);
}

/* "on the NCH of ARFCN 12". */
static const char *where(const struct account *account)
{
    static char words[64];
    snprintf(words, sizeof words, "on the %s of %s", account->kind == KIND_NCH ? "NCH" : "FACCH", cell_name(account->cell));
    return words;
}

/* ---- Which calls are named ---- */

void name_call(struct evidence *evidence, uint32_t key)
{
    for (size_t i = 0, at = key * 2654435761u % NAMED; i < NAMED; i++, at = (at + 1) % NAMED) {
        struct named *named = &evidence->named[at];
        if (named->count && named->key != key) continue;
        named->key = key;
        named->count++;
        return;
    }
}

static uint64_t times_named(const struct evidence *evidence, uint32_t key)
{
    for (size_t i = 0, at = key * 2654435761u % NAMED; i < NAMED && evidence->named[at].count; i++, at = (at + 1) % NAMED)
        if (evidence->named[at].key == key) return evidence->named[at].count;
    return 0;
}

int is_named(const struct evidence *evidence, size_t call)
{
    return call < evidence->calls.count && (times_named(evidence, evidence->calls.keys[call]) || evidence->refused_with[call].count);
}

/* The calls that are named most, the first of them first. */
static void say_named(const struct evidence *evidence, struct sentences *help)
{
    char line[SENTENCE] = "";
    size_t n = 0;
    uint64_t before = UINT64_MAX, place = 0;
    for (int k = 0; k < 6; k++) {
        const struct named *most = NULL;
        for (uint64_t i = 0; i < NAMED; i++) {
            const struct named *named = &evidence->named[i];
            int is_left = named->count < before || (named->count == before && i > place);
            if (named->count && is_left && (!most || named->count > most->count)) most = named;
        }
        if (!most) break;
        before = most->count;
        place = (uint64_t)(most - evidence->named);
        n += (size_t)snprintf(line + n, sizeof line - n, "%s%s (%s)", n ? ", " : "", call_words(most->key), many(most->count, "time", "times"));
    }
    if (n) say(help, "these calls are named: %s", line);
}

/* ---- A call that was never named ---- */

static void say_lost_frames(const struct evidence *evidence, struct verdict *verdict, int always)
{
    const struct capture *capture = &evidence->capture;
    if (evidence->refused) say(&verdict->help, "%s: asternhaken watch shows which, asternhaken decode where", many(evidence->refused, "notification was refused, and it may be in that", "notifications were refused, and it may be in one of them"));
    if (capture->counts[KIND_CLIPPED]) say(&verdict->help, "%s: record whole frames", many(capture->counts[KIND_CLIPPED], "frame was clipped by the recording", "frames were clipped by the recording"));
    if (*capture->damage) say(&verdict->help, "the capture is damaged %s", capture->damage);
    if (always && !verdict->help.count) say(&verdict->help, "a longer capture, or one at a better place: nothing here was refused or clipped");
}

static void never_named(const struct evidence *evidence, size_t call, struct verdict *verdict)
{
    uint32_t key = evidence->calls.keys[call], other = key ^ 1;
    if (!evidence->messages) {
        say(&verdict->seen, "no notification at all in %s", many(evidence->capture.count, "frame", "frames"));
        say(&verdict->missing, "blocks of the CCCH with message type 20, and NOTIFICATION/FACCH");
        say(&verdict->help, "see that the program that captures hands on the CCCH of this cell as GSMTAP, on UDP port 4729");
        say_lost_frames(evidence, verdict, 0);
        return;
    }
    say(&verdict->seen, "%s, and the call in none of them", many(evidence->messages, "notification", "notifications"));
    say(&verdict->missing, "the call itself");
    if (times_named(evidence, other) && !evidence->calls.call[call].is_either) say(&verdict->help, "%s is named %s: perhaps that is meant", call_words(other), many(times_named(evidence, other), "time", "times"));
    else say_named(evidence, &verdict->help);
    say_lost_frames(evidence, verdict, 0);
}

/* ---- What was seen ---- */

static void say_sight(const struct account *account, enum sight sight, const char *what, struct sentences *seen)
{
    const struct moment *first = &account->first[sight], *last = &account->last[sight];
    uint64_t count = account->count[sight];
    if (!count) return;
    if (count == 1) say(seen, "%s once %s, at %s (frame %s)", what, where(account), seconds(first->ms), grouped(first->frame));
    else say(seen, "%s %s %s, from %s (frame %s) to %s (frame %s)", what, many(count, "time", "times"), where(account), seconds(first->ms), grouped(first->frame), seconds(last->ms), grouped(last->frame));
}

static void say_seen(const struct account *account, struct sentences *seen)
{
    static const char *const what[SIGHTS] = {
        [SIGHT_FIRST] = "first half, with the channel,",
        [SIGHT_SECOND] = "second half, with VSTK_RAND,",
        [SIGHT_COMPLETE] = "complete",
        [SIGHT_NO_CHANNEL] = "named without a channel",
        [SIGHT_NO_RANDOM] = "ciphered, with a channel and no random entry,",
        [SIGHT_SEGMENT] = "with a channel, but called a second half,",
        [SIGHT_REDUCED] = "a reduced reference without Segment Id 1 and VSTK_RAND",
        [SIGHT_DISAGREES] = "a half whose reference is unlike that of the one held",
    };
    for (int i = 0; i < SIGHTS; i++) say_sight(account, (enum sight)i, what[i], seen);
    if (account->ran_out) say(seen, "%s ran out %s", many(account->ran_out, "half", "halves"), where(account));
    if (account->dropped) say(seen, "%s dropped %s, as the list number (NLN) changed", many(account->dropped, "half was", "halves were"), where(account));
}

/* ---- What was missing, and what would help ---- */

static void apart(const struct account *account, const struct evidence *evidence, const struct finding *finding, struct verdict *verdict)
{
    int is_nch = account->kind == KIND_NCH;
    const char *name = is_nch ? "T3206" : "T3208";
    uint32_t timer = is_nch ? evidence->timers.t3206 : evidence->timers.t3208;
    if (finding->shortest >= timer)
        say(&verdict->missing, "the other half within %s: at least %s ms lay between the two (%s and %s), and a half is kept for %s ms", name, grouped(finding->shortest), seconds(finding->from.ms), seconds(finding->to.ms), grouped(timer));
    else say(&verdict->missing, "a half that was still held when the other came: the one held had run out after %s ms of %s just before", grouped(timer), name);
    if (finding->timer) {
        say(&verdict->help, "a longer %s: with %s ms the halves are joined at %s (frame %s), as --%s %u shows", name, grouped(finding->timer), seconds(finding->joined.ms), grouped(finding->joined.frame), is_nch ? "t3206" : "t3208", (unsigned)finding->timer);
        verdict->timer = finding->timer;
        verdict->is_t3208 = !is_nch;
    } else if (finding->shortest >= ASTERNHAKEN_LONGEST) say(&verdict->help, "no timer: the longest is %s ms; the cell must send the halves nearer to each other", grouped(ASTERNHAKEN_LONGEST));
    else say(&verdict->help, "no timer that was tried: the cell must send the halves nearer to each other");
    verdict->shortest = (uint32_t)(finding->shortest < UINT32_MAX ? finding->shortest : UINT32_MAX);
}

/* Halves of both kinds came. */
static void both_halves(const struct account *account, const struct evidence *evidence, struct verdict *verdict)
{
    struct finding finding;
    find_timer(account, &evidence->calls, &evidence->log, &evidence->timers, &finding);
    if (finding.is_parted) {
        say(&verdict->missing, "both halves under one list number: it changed between them, which drops halves");
        say(&verdict->help, "no timer: the cell must send both halves before it changes its list");
    } else if (finding.shortest) apart(account, evidence, &finding, verdict);
    else {
        say(&verdict->missing, "a first half before the second: on the FACCH only a second half can join");
        say(&verdict->help, "a capture that begins earlier, or the notification on the NCH");
    }
}

static void one_half(const struct account *account, const struct evidence *evidence, struct verdict *verdict)
{
    int is_first = account->count[SIGHT_FIRST] > 0;
    say(&verdict->missing, "the %s half %s: %s", is_first ? "second" : "first", where(account), is_first ? "it has VSTK_RAND" : "it has the channel");
    for (const struct account *other = evidence->accounts.first; other; other = other->next) {
        if (other->call != account->call || other == account || !other->count[is_first ? SIGHT_SECOND : SIGHT_FIRST]) continue;
        say(&verdict->help, "that half came %s, but halves are joined only on one channel of one cell", where(other));
        return;
    }
    say_lost_frames(evidence, verdict, 1);
}

static void unusable(const struct account *account, struct verdict *verdict)
{
    if (account->count[SIGHT_NO_RANDOM]) {
        say(&verdict->missing, "a random entry for the call: without Segment Id and VSTK_RAND a ciphered call is neither a half nor whole");
        say(&verdict->help, "the cell's configuration: the entries of VSTK_RAND information are missing, or belong to other calls");
    }
    if (account->count[SIGHT_SEGMENT]) {
        say(&verdict->missing, "Segment Id 0 beside the channel: a second half has no channel");
        say(&verdict->help, "the cell's configuration: Segment Id 1 stands beside a channel");
    }
    if (account->count[SIGHT_REDUCED]) {
        say(&verdict->missing, "Segment Id 1 and VSTK_RAND beside the reduced reference");
        say(&verdict->help, "the cell's configuration: a reduced reference is of use only as a second half");
    }
    if (account->count[SIGHT_DISAGREES]) {
        say(&verdict->missing, "two halves that agree: acknowledgement, priority or cipher key number differ");
        say(&verdict->help, "asternhaken decode of both halves shows which differs; the cell must send both alike");
    }
}

static void not_shown(const struct account *account, const struct evidence *evidence, struct verdict *verdict)
{
    if (account->count[SIGHT_FIRST] && account->count[SIGHT_SECOND]) both_halves(account, evidence, verdict);
    else if ((account->count[SIGHT_FIRST] || account->count[SIGHT_SECOND]) && !account->count[SIGHT_DISAGREES]) one_half(account, evidence, verdict);
    else if (account->count[SIGHT_NO_CHANNEL]) {
        say(&verdict->missing, "a channel description %s", where(account));
        say(&verdict->help, "the cell names the call without saying where it is; on the FACCH of a call in progress it may say more");
    }
    unusable(account, verdict);
}

/* It was complete: is it of use? */
static void shown(const struct account *account, const struct evidence *evidence, struct verdict *verdict)
{
    const struct call *call = &evidence->calls.call[account->call];
    uint32_t key = call->key, number = account->cipher_key_number;
    verdict->has_shown = 1;
    if (account->follow[ASTERNHAKEN_FOLLOW_WITH_COUNT]) return;
    if (account->follow[ASTERNHAKEN_FOLLOW_NO_KEY]) {
        say(&verdict->missing, "group key %u, to follow it", (unsigned)number);
        say(&verdict->help, "if the key is held, name the call as %u/%s:%u", (unsigned)(key / 2), key % 2 ? "VGCS" : "VBS", (unsigned)number);
    } else if (account->follow[ASTERNHAKEN_FOLLOW_NO_COUNT]) {
        say(&verdict->missing, "the cell's CELL_GLOBAL_COUNT, to follow it");
        say(&verdict->help, "a capture in which an NCH message carries the count before the call is complete");
    }
}

/* ---- The whole ---- */

static void named_in_refused(const struct evidence *evidence, size_t call, struct verdict *verdict)
{
    uint32_t result = evidence->refused_with[call].result;
    if (!evidence->refused_with[call].count) return;
    say(&verdict->seen, "named %s in refused messages, first in frame %s: refused %d, %s", many(evidence->refused_with[call].count, "time", "times"), grouped(evidence->refused_with[call].frame), (int)ASTERNHAKEN_REFUSAL(result),
        asternhaken_refusal_word(ASTERNHAKEN_REFUSAL(result)));
    if (verdict->has_shown) return;
    say(&verdict->missing, "a message that is accepted: %s", asternhaken_refusal_sentence(ASTERNHAKEN_REFUSAL(result)));
    say(&verdict->help, "asternhaken watch --json has the octets of refused messages, asternhaken decode shows where each is refused");
}

void reach_verdict(const struct evidence *evidence, size_t call, struct verdict *verdict)
{
    memset(verdict, 0, sizeof *verdict);
    for (const struct account *account = evidence->accounts.first; account; account = account->next)
        if (account->call == call && account->count[SIGHT_COMPLETE]) verdict->has_shown = 1;
    int has_shown = verdict->has_shown;
    for (const struct account *account = evidence->accounts.first; account; account = account->next) {
        if (account->call != call) continue;
        say_seen(account, &verdict->seen);
        if (account->count[SIGHT_COMPLETE]) shown(account, evidence, verdict);
        else if (!has_shown) not_shown(account, evidence, verdict);
    }
    if (!is_named(evidence, call)) never_named(evidence, call, verdict);
    named_in_refused(evidence, call, verdict);
}
