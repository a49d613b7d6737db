/* What the receiver answers to a message, shown as lines or as JSON. */
#include "answers.h"

#include "names.h"
#include "show.h"

#include <inttypes.h>
#include <stdio.h>

/* ---- A call ---- */

const char *call_title(const struct calls *calls, uint64_t key)
{
    static char title[NAME + 40];
    size_t i = calls_find(calls, key);
    const char *name = i < calls->count ? calls->call[i].name : "";
    snprintf(title, sizeof title, "%s%s%s", name, *name ? " " : "", call_words(key));
    return title;
}

const char *call_asked(const struct calls *calls, size_t i)
{
    static char title[NAME + 40];
    const struct call *call = &calls->call[i];
    if (!call->is_either) return call_title(calls, call->key);
    snprintf(title, sizeof title, "%s%s%u", call->name, *call->name ? " " : "", (unsigned)(call->key / 2));
    return title;
}

static int is_complete(const struct asternhaken_entry *entry)
{
    return entry->told >= ASTERNHAKEN_TOLD_CLEAR && entry->told <= ASTERNHAKEN_TOLD_JOINED;
}

/* ---- Records ---- */

static void print_frequencies(const struct asternhaken_record *r)
{
    if (!r->hops) return;
    if (r->short_list) printf(" by the short list %016" PRIx64, r->frequencies);
    else printf(" by the allocation %0*" PRIx64, 2 * (int)r->allocation_octets, r->frequencies);
}

void print_record(const struct asternhaken_entry *entry)
{
    const struct asternhaken_record *r = &entry->record;
    char meaning[MEANING];
    channel_meaning(r->channel, meaning);
    printf("%s", meaning);
    print_frequencies(r);
    if (r->emergency) printf(", %sEMERGENCY%s", bad(), plain());
    if (r->priority) printf(", priority %d", (int)r->priority);
    if (!entry->follow) return;
    printf("; ciphered with key %d: %s", (int)r->cipher_key_number, asternhaken_follow_word(entry->follow));
    if (entry->follow == ASTERNHAKEN_FOLLOW_WITH_COUNT) printf(", count %d", (int)entry->kept_count);
}

static void json_given(uint64_t given, const char *key, uint64_t value)
{
    if (given) json_number(key, value);
}

void json_record(const struct asternhaken_entry *entry)
{
    const struct asternhaken_record *r = &entry->record;
    char meaning[MEANING];
    channel_meaning(r->channel, meaning);
    json_hex("channel", r->channel, 6);
    json_text("channel_meaning", meaning);
    if (r->hops) json_hex(r->short_list ? "frequency_short_list" : "mobile_allocation", r->frequencies, r->short_list ? 16 : 2 * (int)r->allocation_octets);
    json_number("priority", r->priority);
    json_flag("acknowledged", (int)r->acknowledged);
    json_flag("emergency", (int)r->emergency);
    json_number("cipher_key_number", r->cipher_key_number);
    if (r->rand_given) json_hex("vstk_rand", r->vstk_rand, 9);
    json_given(r->segment_given, "segment_id", r->segment_id);
    json_given(r->count_given, "cell_global_count", r->cell_global_count);
    json_given(r->uplink_given, "uplink_access", r->uplink_access);
    json_given(r->fr_amr_given, "fr_amr_config", r->fr_amr_config);
    json_given(r->hr_amr_given, "hr_amr_config", r->hr_amr_config);
    json_given(r->sms_given, "sms_confidentiality", r->sms_confidentiality);
    json_given(r->sms_given, "sms_privacy", r->sms_privacy);
    if (!entry->follow) return;
    json_number("follow", entry->follow);
    json_text("follow_word", asternhaken_follow_word(entry->follow));
    if (entry->follow == ASTERNHAKEN_FOLLOW_WITH_COUNT) json_number("kept_count", entry->kept_count);
}

/* ---- Lines ---- */

void show_heading(void)
{
    printf("%s%12s %9s %6s  %-5s  %-20s  %s%s\n", dim(), "time", "frame", "ARFCN", "on", "call", "told", plain());
}

static const char *on_word(const struct heard *heard)
{
    return heard->frame->kind == KIND_NCH ? "NCH" : heard->frame->channel_type & 0x80 ? "SACCH" : "FACCH";
}

static void begin_line(const struct heard *heard, const char *call)
{
    printf("%12s %9" PRIu64 " %6u  %-5s  %-20s  ", seconds(heard->capture->ms), heard->capture->count, (unsigned)heard->frame->arfcn, on_word(heard), call);
}

static void begin_json(const struct heard *heard, const char *type)
{
    char time[48];
    const struct frame *frame = heard->frame;
    snprintf(time, sizeof time, "%" PRId64 ".%06u", heard->capture->now_s, (unsigned)heard->capture->now_us);
    json_open();
    json_text("type", type);
    json_number("frame.number", heard->capture->count);
    json_text("frame.time_epoch", time);
    json_text("frame.time_relative", seconds(heard->capture->ms));
    json_number("tick", (uint32_t)heard->capture->ms);
    json_number("gsmtap.arfcn", frame->arfcn);
    json_number("gsmtap.pcs_band", frame->is_pcs);
    json_number("gsmtap.ts", frame->timeslot);
    json_number("gsmtap.frame_nr", frame->frame_number);
    json_number("gsmtap.chan_type", frame->channel_type);
    json_signed("gsmtap.signal_dbm", frame->signal_dbm);
    json_text("on", on_word(heard));
}

static void json_call(const struct calls *calls, uint64_t key)
{
    size_t i = calls_find(calls, key);
    json_number("key", key);
    json_number("call_reference", key / 2);
    json_text("service", key % 2 ? "VGCS" : "VBS");
    if (i < calls->count && *calls->call[i].name) json_text("name", calls->call[i].name);
}

void show_entry(const struct heard *heard, const struct asternhaken_entry *entry)
{
    if (heard->json) {
        begin_json(heard, "entry");
        json_call(heard->calls, entry->key);
        json_number("told", entry->told);
        json_text("told_word", asternhaken_told_word(entry->told));
        if (is_complete(entry)) json_record(entry);
        json_close();
        return;
    }
    begin_line(heard, call_title(heard->calls, entry->key));
    printf("%s%s%s", is_complete(entry) ? good() : "", asternhaken_told_word(entry->told), is_complete(entry) ? plain() : "");
    if (is_complete(entry)) printf(": "), print_record(entry);
    printf("\n");
}

void show_page(const struct heard *heard, const struct asternhaken_paged *paged)
{
    uint8_t octets[ASTERNHAKEN_IDENTITY_LONGEST];
    const struct asternhaken_page *page = &paged->page;
    const char *kind = asternhaken_identity_word(ASTERNHAKEN_IDENTITY_KIND(page->identity_first));
    for (uint32_t i = 0; i < sizeof octets; i++) octets[i] = (uint8_t)asternhaken_identity_octet(page, i);
    if (heard->json) {
        begin_json(heard, "paged");
        json_text("identity_kind", kind);
        json_octets("identity", octets, page->identity_octets);
        json_text("channel_first", asternhaken_channel_first_word(page->channel_first));
        json_given(page->emlpp_priority_given, "emlpp_priority", page->emlpp_priority);
        json_text("paging_cause", asternhaken_paging_cause_word(paged->paging_cause));
        json_close();
        return;
    }
    begin_line(heard, "-");
    printf("paging %s ", kind);
    for (uint32_t i = 0; i < page->identity_octets && i < sizeof octets; i++) printf("%02x", octets[i]);
    printf(", %s", asternhaken_channel_first_word(page->channel_first));
    if (page->emlpp_priority_given) printf(", priority %d", (int)page->emlpp_priority);
    printf(", %s\n", asternhaken_paging_cause_word(paged->paging_cause));
}

void show_lost(const struct heard *heard, uint64_t ran_out, uint64_t dropped)
{
    if (heard->json) {
        begin_json(heard, "lost");
        json_number("ran_out", ran_out);
        json_number("dropped", dropped);
        json_close();
        return;
    }
    if (ran_out) begin_line(heard, "-"), printf("%s ran out\n", many(ran_out, "half", "halves"));
    if (dropped) begin_line(heard, "-"), printf("%s dropped: the list number (NLN) changed\n", many(dropped, "half", "halves"));
}

void show_refusal(const struct heard *heard, uint32_t result)
{
    uint32_t refusal = ASTERNHAKEN_REFUSAL(result);
    if (heard->json) {
        begin_json(heard, "refused");
        json_number("refusal", refusal);
        json_text("refusal_word", asternhaken_refusal_word(refusal));
        json_number("refused_bit", ASTERNHAKEN_BIT(result));
        json_octets("octets", heard->frame->message, heard->frame->length);
        json_close();
        return;
    }
    begin_line(heard, "-");
    printf("%srefused %d%s", bad(), (int)refusal, plain());
    if (ASTERNHAKEN_BIT(result)) printf(" at bit %d", (int)ASTERNHAKEN_BIT(result));
    printf(": %s\n", asternhaken_refusal_word(refusal));
}

/* ---- The capture ---- */

static void json_capture(const struct capture *capture, const struct calls *calls)
{
    static const char *const keys[KINDS] = { "nch", "facch", "other_messages", "uplink", "not_um", "gsmtap_version", "clipped", "broken", "foreign", "fragments" };
    json_open();
    json_text("type", "capture");
    json_number("frames", capture->count);
    for (int i = 0; i < KINDS; i++) json_number(keys[i], capture->counts[i]);
    json_number("time_goes_back", capture->went_back);
    json_number("calls_left_out", calls->left_out);
    if (*capture->damage) json_text("damaged", capture->damage);
    json_close();
}

void show_capture(const struct capture *capture, const struct calls *calls, int json)
{
    if (*capture->damage) complain("%s is damaged %s", capture->name, capture->damage);
    if (json) {
        json_capture(capture, calls);
        return;
    }
    printf("%s\n", many(capture->count, "frame", "frames"));
    for (int i = 0; i < KINDS; i++)
        if (capture->counts[i]) printf("  %11s  %s\n", grouped(capture->counts[i]), kind_words((enum kind)i));
    if (capture->went_back) printf("%s earlier than the one before: taken at that one's time\n", many(capture->went_back, "frame is", "frames are"));
    if (calls->left_out) printf("%s left out: only 50 calls are followed at a time; name those that matter\n", many(calls->left_out, "entry was", "entries were"));
}
