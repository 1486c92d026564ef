/* A record that is kept over many events: two paths are opened, one is probed and answered three hundred times, the
   other is lost; polls, a choice, and the standings at the end. docs/ENTRIES.md has the layouts. */
#include <inttypes.h>
#include <stdio.h>
#include <string.h>

#include "hessiantalc.h"

#define SECOND UINT64_C(1000000000)
#define MS UINT64_C(1000000)

/* The kinds of events that are used here. */
enum { OPEN = 1, PROBE = 2, ANSWER = 3, POLL = 4, SAMPLE = 5, FOLD = 6, CHOOSE = 15 };

/* The record: the caller's own memory, 11,040 bytes. */
static struct hess_record record;

/* An event's number fields; those that its kind has not are 0. */
struct fields {
    uint8_t flags;
    uint64_t at, span;
    uint32_t id, len, acked;
};

/* One event on a slot: the value, or the refusal is counted. */
static uint64_t refused;
static uint64_t event(uint8_t kind, uint8_t slot, struct fields f) {
    struct hess_reply r = hess_record_event(record.settings, record.slots, kind, slot, f.flags, f.at, f.span, f.id,
                                            f.len, f.acked);
    refused += r.number != 0;
    return r.value;
}

/* Probes slot 0 and answers 20 ms later; probes slot 1, which never answers. */
static void turn(uint64_t at) {
    uint64_t id = event(PROBE, 0, (struct fields){.at = at, .span = at + SECOND, .id = 1000, .len = 1200});
    event(PROBE, 1, (struct fields){.at = at, .span = at + SECOND, .id = 2000, .len = 1200});
    at += 20 * MS;
    if (event(ANSWER, 0, (struct fields){.at = at, .id = (uint32_t)id, .acked = 1200}) == 1) {
        event(SAMPLE, 0, (struct fields){.at = at, .span = 20 * MS});
        event(FOLD, 0, (struct fields){.flags = 1});
    }
}

/* Polls a slot; each probe that lapsed is folded into its ETX. How many lapsed. */
static uint64_t poll(uint8_t slot, uint64_t at) {
    uint64_t lapses = event(POLL, slot, (struct fields){.at = at});
    for (uint64_t n = 0; n < lapses; n++)
        event(FOLD, slot, (struct fields){.flags = 0});
    return lapses;
}

/* Takes a number of so many bytes, the lowest first. */
static uint64_t take(const uint8_t **at, int bytes) {
    uint64_t x = 0;
    for (int i = 0; i < bytes; i++)
        x |= (uint64_t)(*at)[i] << 8 * i;
    *at += bytes;
    return x;
}

/* Prints a slot's standing, or why there is none. */
static void print_standing(uint8_t slot) {
    static const struct { const char *name; int bytes; } fields[6] = {
        {"last RTT", 8}, {"least RTT", 8}, {"base RTT", 8}, {"proven", 2}, {"answered", 4}, {"quiet since", 8},
    };
    uint8_t out[51];
    const uint8_t *at = out;
    struct hess_reply r = hess_record_standing(record.slots, slot, out, sizeof out);
    if (r.number != 0) {
        printf("slot %d: refusal %" PRIu64 "\n", slot, r.number);
        return;
    }
    printf("slot %d:", slot);
    uint64_t map = take(&at, 1);
    for (int i = 0; i < 6; i++)
        if (map >> i & 1)
            printf(" %s %" PRIu64 ",", fields[i].name, take(&at, fields[i].bytes));
    uint64_t bits = take(&at, 8);
    double etx;
    memcpy(&etx, &bits, sizeof etx);
    printf(" ETX %g,", etx);
    printf(" misses %" PRIu64 "\n", take(&at, 4));
}

int main(void) {
    if (hess_record_size() != sizeof record)
        return 1;
    struct hess_reply r =
        hess_record_new(record.settings, record.slots, 5 * SECOND, SECOND, 10 * SECOND, 60 * SECOND);
    printf("new: refusal %" PRIu64 "\n", r.number);
    for (uint8_t slot = 0; slot < 2; slot++)
        event(OPEN, slot, (struct fields){.len = 1200, .flags = 32 + 8 + 1}); /* fits, normal, wired */
    uint64_t lapses = 0;
    for (int n = 0; n < 300; n++) {
        turn(n * SECOND);
        for (uint8_t slot = 0; slot < 2; slot++)
            lapses += poll(slot, (n + 1) * SECOND);
    }
    printf("refused: %" PRIu64 ", lapsed: %" PRIu64 "\n", refused, lapses);
    uint64_t slot = event(CHOOSE, 0, (struct fields){.span = 0x3ff8000000000000}); /* the bits of the margin, 1.5 */
    printf("chosen: slot %" PRIu64 "\n", slot);
    /* the same choice by the words of its event */
    static const uint64_t words[4] = {0, 0x3ff8000000000000, HESS_EVENT_SIZES(0, 0), HESS_EVENT_MARKS(CHOOSE, 0, 0, 0)};
    uint64_t answer = hess_record_words(record.settings, record.slots, words);
    printf("by words: refusal %" PRIu32 ", slot %" PRIu32 "\n", HESS_NUMBER(answer), HESS_VALUE(answer));
    /* and by its bytes */
    static const uint8_t bytes[] = {2, CHOOSE, 0, 0, 0, 0, 0, 0, 0, 0xf8, 0x3f};
    struct hess_taken t = hess_record_bytes(record.settings, record.slots, bytes, sizeof bytes);
    printf("by bytes: refusal %" PRIu64 ", slot %" PRIu64 ", %" PRIu64 " bytes read\n", t.number, t.value, t.read);
    for (uint8_t slot = 0; slot < 3; slot++)
        print_standing(slot);
    return 0;
}
