/* What was seen of a call on one channel of one cell. */
#include "account.h"

#include <stdlib.h>

/* ---- What an entry is ---- */

/* The random entry that belongs to an entry: the i-th to the i-th ciphered one, calls first, then reduced references, which all are. Nothing where there is none. */
static const struct asternhaken_random *random_of(const struct asternhaken_nch_message *m, uint32_t index)
{
    uint64_t place = 0;
    for (uint64_t i = 0; i < index && i < m->n_calls; i++) place += m->calls[i].cipher_key_number != 0;
    if (index >= m->n_calls) place += index - m->n_calls;
    return place < m->n_random ? &m->random[place] : NULL;
}

/* Which sight an entry of the NCH is that was told 7. */
static enum sight unusable_nch(const struct asternhaken_nch_message *m, uint32_t index)
{
    const struct asternhaken_random *random = random_of(m, index);
    if (index >= m->n_calls) return random && random->segment_id && random->rand_given ? SIGHT_DISAGREES : SIGHT_REDUCED;
    if (!m->calls[index].channel_given) return SIGHT_DISAGREES;
    if (!random) return SIGHT_NO_RANDOM;
    return random->segment_id ? SIGHT_SEGMENT : SIGHT_DISAGREES;
}

/* An entry that is a half: its channel makes it the first. */
static int has_channel(const struct frame *frame, uint32_t index, const struct asternhaken_nch_message *m)
{
    struct asternhaken_facch_message on_facch;
    if (frame->kind == KIND_NCH) return index < m->n_calls && m->calls[index].channel_given;
    return !ASTERNHAKEN_REFUSAL(asternhaken_facch_decode(frame->message, frame->length, &on_facch)) && on_facch.call.channel_given;
}

static enum sight sight_of(const struct frame *frame, uint32_t index, const struct asternhaken_entry *entry)
{
    struct asternhaken_nch_message m = { 0 };
    int is_nch = frame->kind == KIND_NCH && !ASTERNHAKEN_REFUSAL(asternhaken_nch_decode(frame->message, frame->length, &m));
    switch (entry->told) {
    case ASTERNHAKEN_TOLD_CLEAR:
    case ASTERNHAKEN_TOLD_ONE_PIECE: return SIGHT_COMPLETE;
    case ASTERNHAKEN_TOLD_NO_CHANNEL: return SIGHT_NO_CHANNEL;
    case ASTERNHAKEN_TOLD_UNUSABLE: return is_nch ? unusable_nch(&m, index) : SIGHT_DISAGREES;
    default: return has_channel(frame, index, &m) ? SIGHT_FIRST : SIGHT_SECOND;
    }
}

/* ---- Accounts ---- */

static struct account *account_of(struct accounts *accounts, size_t call, struct cell *cell, enum kind kind)
{
    struct account *account = accounts->first;
    while (account && (account->call != call || account->cell != cell || account->kind != kind)) account = account->next;
    if (account || !(account = calloc(1, sizeof *account))) return account;
    account->call = call;
    account->cell = cell;
    account->kind = kind;
    if (accounts->last) accounts->last->next = account;
    else accounts->first = account;
    return accounts->last = account;
}

static void count(struct account *account, enum sight sight, struct moment now)
{
    if (!account->count[sight]++) account->first[sight] = now;
    account->last[sight] = now;
}

static int add_half(struct account *account, enum sight sight, struct moment now)
{
    if (account->n_halves == account->room) {
        size_t room = account->room ? 2 * account->room : 16;
        struct half_seen *more = realloc(account->halves, room * sizeof *more);
        if (!more) return 0;
        account->halves = more;
        account->room = room;
    }
    account->halves[account->n_halves++] = (struct half_seen){ now, sight == SIGHT_FIRST ? ASTERNHAKEN_FIRST_HALF : ASTERNHAKEN_SECOND_HALF, account->kind == KIND_NCH ? account->cell->nln_changes : 0 };
    return 1;
}

int account_take(struct accounts *accounts, const struct calls *calls, struct cell *cell, const struct capture *capture, const struct frame *frame, uint32_t index)
{
    struct asternhaken_entry entry;
    struct moment now = { capture->ms, capture->count };
    asternhaken_entry_get(cell->state, sizeof cell->state, index, &entry);
    if (entry.told == ASTERNHAKEN_TOLD_NOT_OURS) return 1;
    struct account *account = account_of(accounts, calls_find(calls, entry.key), cell, frame->kind);
    if (!account) return 0;
    enum sight sight = sight_of(frame, index, &entry);
    count(account, sight, now);
    account->follow[entry.follow & 3]++;
    if (entry.told == ASTERNHAKEN_TOLD_HALF_STORED) account->is_held = 1, account->held_since = now;
    if (entry.told == ASTERNHAKEN_TOLD_JOINED) account->is_held = 0, count(account, SIGHT_COMPLETE, now);
    if (entry.follow) account->cipher_key_number = (uint32_t)entry.record.cipher_key_number;
    return sight > SIGHT_SECOND || add_half(account, sight, now);
}

/* ---- Halves that are gone ---- */

static void gone(struct account *account, const struct asternhaken_answer *answer, uint64_t now, uint32_t timer)
{
    int by_time = answer->expired && (!answer->dropped || now - account->held_since.ms >= timer);
    if (by_time) account->ran_out++;
    else account->dropped++;
    account->is_held = 0;
}

/* Whether the library holds a half of an account, as it has it behind a message. */
static int library_holds(const struct account *account, const struct calls *calls)
{
    struct asternhaken_held held;
    uint64_t many, on = account->kind == KIND_NCH ? ASTERNHAKEN_ON_NCH : ASTERNHAKEN_ON_FACCH;
    const uint8_t *state = account->cell->state;
    asternhaken_held_count(state, ASTERNHAKEN_STATE_LENGTH, &many);
    for (uint32_t i = 0; i < many; i++) {
        asternhaken_held_get(state, ASTERNHAKEN_STATE_LENGTH, i, &held);
        if (held.key == calls->keys[account->call] && held.on == on) return 1;
    }
    return 0;
}

/* What this message told of the account's call, or the number of no telling. */
static uint64_t told_now(const struct account *account, const struct calls *calls, const struct asternhaken_answer *answer)
{
    struct asternhaken_entry entry;
    for (uint32_t i = 0; i < answer->entry_count; i++) {
        asternhaken_entry_get(account->cell->state, ASTERNHAKEN_STATE_LENGTH, i, &entry);
        if (entry.key == calls->keys[account->call]) return entry.told;
    }
    return ASTERNHAKEN_TOLD_NOT_OURS;
}

void account_lost(struct accounts *accounts, const struct calls *calls, struct cell *cell, const struct capture *capture, const struct timers *timers)
{
    struct asternhaken_answer answer;
    asternhaken_answer_get(cell->state, sizeof cell->state, &answer);
    answer.expired += cell->ran_out;
    if (!answer.expired && !answer.dropped) return;
    for (struct account *account = accounts->first; account; account = account->next) {
        if (account->cell != cell || !account->is_held) continue;
        uint64_t told = told_now(account, calls, &answer);
        int is_lost = told == ASTERNHAKEN_TOLD_HALF_STORED || (told != ASTERNHAKEN_TOLD_JOINED && !library_holds(account, calls)); /* one that is stored took the place of one that was lost */
        if (is_lost) gone(account, &answer, capture->ms, account->kind == KIND_NCH ? timers->t3206 : timers->t3208);
    }
}

void accounts_free(struct accounts *accounts)
{
    for (struct account *account = accounts->first, *next; account; account = next) {
        next = account->next;
        free(account->halves);
        free(account);
    }
}
