/* What host/stack.c and host/lines.c measure: a record that is full, and events on it. The functions are declared by
   plain pointers to words, so that a library whose slots have another number of rows can be measured too. */
#include <stdbool.h>
#include <stddef.h>
#include <stdint.h>
#include <stdio.h>
#include <stdlib.h>
#include <string.h>

#define SECOND UINT64_C(1000000000)
#define SLOTS 8

struct reply { uint64_t number, value; };
struct taken { uint64_t number, value, read; };

uint64_t hess_record_size(void);
struct reply hess_record_new(uint64_t *settings, uint64_t *slots, uint64_t cap, uint64_t gap, uint64_t window,
                             uint64_t horizon);
struct reply hess_record_event(const uint64_t *settings, uint64_t *slots, uint8_t kind, uint8_t slot, uint8_t flags,
                               uint64_t at, uint64_t span, uint32_t id, uint32_t len, uint32_t acked);
uint64_t hess_record_words(const uint64_t *settings, uint64_t *slots, const uint64_t *event);
struct taken hess_record_bytes(const uint64_t *settings, uint64_t *slots, const uint8_t *event, size_t len);
struct reply hess_record_standing(const uint64_t *slots, uint8_t slot, uint8_t *out, size_t outlen);

enum { OPEN = 1, PROBE, ANSWER, POLL, SAMPLE, FOLD, PROVE, SEARCH, JUDGE, DATA, FRESH, THAW, SWEEP, CLOSE, CHOOSE };

struct event {
    uint8_t kind, slot, flags;
    uint64_t at, span;
    uint32_t id, len, acked;
};

/* An event's four words. */
static void words_of(struct event e, uint64_t w[4]) {
    w[0] = e.at;
    w[1] = e.span;
    w[2] = e.id | (uint64_t)e.len << 32;
    w[3] = e.acked | (uint64_t)e.kind << 32 | (uint64_t)e.slot << 40 | (uint64_t)e.flags << 48;
}

/* A record of so many bytes, aligned to a line of the cache: settings, then slots. */
static uint64_t *new_record(void) {
    uint64_t *record = aligned_alloc(64, (hess_record_size() + 63) / 64 * 64);
    if (record == NULL)
        exit(2);
    return record;
}

/* One event of the making of a record. None may be refused. */
static uint32_t must(uint64_t *record, struct event e) {
    uint64_t w[4];
    words_of(e, w);
    uint64_t answer = hess_record_words(record, record + 4, w);
    if (answer >> 32 != 0) {
        fprintf(stderr, "kind %d, slot %d: refusal %d\n", e.kind, e.slot, (int)(answer >> 32));
        exit(2);
    }
    return (uint32_t)answer;
}

/* The instant after the making; the first identifier of a slot, of thirteen probes and a search; that of the first in
   the late list, of the first that waits, of the search. */
#define NOW (70 * SECOND)
#define FIRST(slot) (1000u * (slot) + 7)
#define LATE(slot) (FIRST(slot) + 1)
#define WAITING(slot) (FIRST(slot) + 5)
#define SOUGHT(slot) (FIRST(slot) + 13)

/* Opens a slot. */
static void open_slot(uint64_t *record, uint8_t slot) {
    must(record, (struct event){.kind = OPEN, .slot = slot, .len = 1200, .flags = (uint8_t)(0x68 + slot % 4)});
}

/* Fills a slot: a probe that was answered, four that lapsed, eight that wait, 32 samples in 8 spans, a search that is
   out, data. */
static void fill(uint64_t *record, uint8_t slot) {
    open_slot(record, slot);
    struct event probe = {.kind = PROBE, .slot = slot, .at = 1, .span = 2, .id = FIRST(slot), .len = 1200};
    uint32_t id = must(record, probe);
    must(record, (struct event){.kind = ANSWER, .slot = slot, .at = 2, .id = id, .acked = 1200});
    for (int n = 0; n < 4; n++)
        must(record, probe);
    must(record, (struct event){.kind = POLL, .slot = slot, .at = 3});
    probe.at = NOW - 9;
    probe.span = NOW + SECOND;
    for (int n = 0; n < 8; n++)
        must(record, probe);
    for (uint64_t n = 0; n < 32; n++) {
        /* the last opens the eighth span; the first, which ends just before 10 s, is not beyond the horizon yet */
        uint64_t at = n == 31 ? NOW : n < 28 ? n / 4 * 10 * SECOND + n % 4 * 3333333333 : NOW - 1;
        must(record, (struct event){.kind = SAMPLE, .slot = slot, .at = at, .span = 1000000 * (9 + slot) + n});
        must(record, (struct event){.kind = FOLD, .slot = slot, .flags = n % 5 != 0});
    }
    must(record, (struct event){.kind = PROVE, .slot = slot, .len = 100});
    must(record, (struct event){.kind = SEARCH, .slot = slot, .at = NOW});
    must(record, (struct event){.kind = DATA, .slot = slot, .at = NOW - 10, .len = 100});
}

/* A record whose eight slots are made by a function. */
static uint64_t *record_by(void (*make)(uint64_t *, uint8_t)) {
    uint64_t *record = new_record();
    if (hess_record_new(record, record + 4, 5 * SECOND, SECOND, 600 * SECOND, 60 * SECOND + 5).number != 0)
        exit(2);
    for (uint8_t slot = 0; slot < SLOTS; slot++)
        make(record, slot);
    return record;
}
