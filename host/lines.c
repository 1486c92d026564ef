/* Events on a record, each between two marks, for `host/lines`, which counts the lines of the cache that each touches
   of the record. Prints where marks and record are, then each event's name and value in its order. */
#include <inttypes.h>

#include "full.h"

static volatile uint64_t begin_mark, end_mark;
static uint64_t *record;

/* Whether the record is full, or has eight paths just opened; up to three events on the slot that come before; the
   event. An identifier is told from the slot's first on. */
struct row {
    const char *name;
    bool full;
    struct event before[3], e;
};

#define OF(kind_) {.kind = kind_, .at = NOW}
#define PROBED {.kind = PROBE, .at = NOW, .span = NOW + SECOND, .len = 1200}
#define ANSWERED(id_) {.kind = ANSWER, .at = NOW, .id = id_, .acked = 1200}
static const struct row rows[] = {
    {"open", true, {OF(CLOSE)}, {.kind = OPEN, .len = 1200, .flags = 0x68}},
    {"probe (none waits)", false, {{0}}, PROBED},
    {"probe (seven wait)", true, {ANSWERED(12)}, PROBED},
    {"answer (in time, alone)", false, {PROBED}, ANSWERED(0)},
    {"answer (in time, the first of eight)", true, {{0}}, ANSWERED(5)},
    {"answer (late)", true, {{0}}, ANSWERED(1)},
    {"answer (search)", true, {{0}}, ANSWERED(13)},
    {"poll (none waits)", false, {{0}}, OF(POLL)},
    {"poll (eight wait, none due)", true, {{0}}, OF(POLL)},
    {"poll (one lapses, alone)", false, {PROBED}, {.kind = POLL, .at = NOW + 9 * SECOND}},
    {"poll (eight put off)", true, {OF(DATA)}, {.kind = POLL, .at = NOW + 2 * SECOND}},
    {"poll (eight lapse)", true, {{0}}, {.kind = POLL, .at = NOW + 9 * SECOND}},
    {"sample (the first)", false, {{0}}, {.kind = SAMPLE, .at = NOW, .span = 7}},
    {"sample (32 in the window)", true, {{0}}, {.kind = SAMPLE, .at = NOW + SECOND, .span = 7}},
    {"fold", true, {{0}}, {.kind = FOLD, .flags = 1}},
    {"prove", true, {{0}}, {.kind = PROVE, .len = 109}},
    {"search", false, {{.kind = PROVE, .len = 100}}, OF(SEARCH)},
    {"judge (none out)", false, {{0}}, {.kind = JUDGE, .at = NOW, .span = 9}},
    {"judge (lost)", true, {ANSWERED(5), PROBED, ANSWERED(14)}, {.kind = JUDGE, .at = NOW + SECOND, .span = 9}},
    {"data", true, {{0}}, {.kind = DATA, .at = NOW, .len = 100}},
    {"fresh", true, {{0}}, OF(FRESH)},
    {"thaw", true, {{0}}, OF(THAW)},
    {"sweep (eight wait)", true, {{0}}, OF(SWEEP)},
    {"close", true, {{0}}, OF(CLOSE)},
    {"choose (eight paths, 32 samples each)", true, {{0}}, {.kind = CHOOSE, .span = 0x3ff4cccccccccccd}},
};

/* The event on this slot. */
static struct event on(struct event e, uint8_t slot) {
    e.slot = slot;
    e.id += FIRST(slot);
    return e;
}

static void run(const struct row *row, const uint64_t *state, uint8_t slot) {
    _Alignas(32) uint64_t words[4];
    memcpy(record, state, hess_record_size());
    for (int n = 0; n < 3; n++)
        if (row->before[n].kind != 0)
            must(record, on(row->before[n], slot));
    words_of(on(row->e, slot), words);
    begin_mark = 1;
    uint64_t answer = hess_record_words(record, record + 4, words);
    end_mark = 1;
    printf("%s|%" PRIu64 "|%" PRIu64 "\n", row->name, answer >> 32, answer & UINT32_MAX);
}

int main(void) {
    record = new_record();
    uint64_t *full = record_by(fill), *bare = record_by(open_slot);
    printf("%08" PRIxPTR " %08" PRIxPTR " %08" PRIxPTR " %" PRIu64 "\n", (uintptr_t)&begin_mark, (uintptr_t)&end_mark,
           (uintptr_t)record, hess_record_size());
    for (size_t n = 0; n < sizeof rows / sizeof rows[0]; n++)
        for (uint8_t slot = 0; slot < SLOTS; slot++)
            run(&rows[n], rows[n].full ? full : bare, slot);
    return 0;
}
