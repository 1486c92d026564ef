/*
 * Hessiantalc over C: every function of libhessiantalc.a (x86-64 Linux), which `host/build hessiantalc` proves and
 * writes to target/staticlib. This header and that archive are all that a program takes over:
 *
 *     cc -I DIR-OF-THE-HEADER program.c DIR-OF-THE-ARCHIVE/libhessiantalc.a -o program
 *
 * The archive defines the functions named here and no other name; of a C library it needs memcpy, memmove and memset.
 * `host/examples` holds each declaration to the function's own in crates/hessiantalc/src, `host/stack` the names.
 *
 * A caller passes pointers that are good for as many bytes as the length beside them says, to ranges of memory that do
 * not overlap. Beyond that nothing is asked: a call outside the limits gets a refusal number, and nothing is written.
 * Instants and durations are nanoseconds. Bytes are little-endian. docs/ENTRIES.md has the layouts of rivals, events
 * and records, and every refusal with what to do about it.
 */
#ifndef HESSIANTALC_H
#define HESSIANTALC_H

#include <stdbool.h>
#include <stddef.h>
#include <stdint.h>

#ifdef __cplusplus
extern "C" {
#endif

/* The refusal number, 0 if the call was accepted, and the value, 0 if it was refused. */
struct hess_reply {
    uint64_t number;
    uint64_t value;
};

/* The same where the value is a float. */
struct hess_float_reply {
    uint64_t number;
    double value;
};

/* ---- a record of up to eight paths, kept by the caller */

/*
 * A record: plain words, the same on every machine, with no pointers in it. It may be copied, stored, sent and read
 * back as it is. docs/ENTRIES.md says what each word is. Words that no record wrote are read by the same rules as any
 * other, and are harmless: a call on them gives an answer, and writes nowhere but in this record. The functions take
 * its two members one by one.
 *
 * No function keeps anything between calls, and none writes any memory but what is lent: two records may be used
 * from two threads at once; one record is used from one thread at a time.
 *
 * One call takes at most 2,352 bytes of stack, its return address among them, measured on x86-64 on full records over
 * all events (host/stack): hess_record_size 8, hess_record_new 40, hess_record_event 2,272 and 32 of arguments above
 * them, hess_record_words 2,224 (1,736 with any event but a choose), hess_record_bytes 2,352, hess_record_standing 256.
 */
struct hess_record {
    uint64_t settings[4];
    uint64_t slots[8][43][4];
};

/* What is said of an event's bytes: as hess_reply, and how many bytes its record has, 0 where none could be read. */
struct hess_taken {
    uint64_t number;
    uint64_t value;
    uint64_t read;
};

/* The bytes of a record: 11,040. */
uint64_t hess_record_size(void);

/*
 * Makes a record of eight empty slots with these settings, durations, in the words lent. 6: a setting is 2^62 or more;
 * then nothing is written.
 */
struct hess_reply hess_record_new(uint64_t settings[4], uint64_t slots[8][43][4], uint64_t cap, uint64_t gap,
                                  uint64_t window, uint64_t horizon);

/*
 * One event, by its numbers: `at` is its instant, `span` a due instant, a round trip, a timeout or a margin's bits,
 * `id` a draw or an identifier; a field that its kind has not is not read. The settings are read alone, and may be
 * others with each event: one of 2^62 or more that the kind reads gets 6, the cap with a poll, the gap with an answer
 * or a judge, window and horizon with a sample. A probe whose due instant is below its own instant gets 23. The answer
 * is that of hess_events; a refused event leaves every word as it was.
 */
struct hess_reply hess_record_event(const uint64_t settings[4], uint64_t slots[8][43][4], uint8_t kind, uint8_t slot,
                                    uint8_t flags, uint64_t at, uint64_t span, uint32_t id, uint32_t len,
                                    uint32_t acked);

/*
 * An event in four words, as a caller that keeps events has them: { at, span, HESS_EVENT_SIZES(id, len),
 * HESS_EVENT_MARKS(kind, slot, flags, acked) }. The uppermost byte of the last is not read. Aligned to 32 bytes, the
 * words lie in one line of the cache. And the parts of an answer that is one word: the refusal number, 0 if the event
 * was accepted, and the value, 0 if it was refused.
 */
#define HESS_EVENT_SIZES(id, len) ((uint64_t)(id) | (uint64_t)(len) << 32)
#define HESS_EVENT_BYTES(kind, slot, flags) ((uint64_t)(kind) | (uint64_t)(slot) << 8 | (uint64_t)(flags) << 16)
#define HESS_EVENT_MARKS(kind, slot, flags, acked) ((uint64_t)(acked) | HESS_EVENT_BYTES(kind, slot, flags) << 32)
#define HESS_NUMBER(answer) ((uint32_t)((answer) >> 32))
#define HESS_VALUE(answer) ((uint32_t)(answer))

/*
 * The same as hess_record_event, 6 for a setting of 2^62 or more that the kind reads among it, by the four words of an
 * event; the answer is one word. It is quicker than by numbers: nothing but pointers is handed over.
 */
uint64_t hess_record_words(const uint64_t settings[4], uint64_t slots[8][43][4], const uint64_t event[4]);

/*
 * The same for the event whose record, as in a file, these bytes begin with; bytes behind it are not read. 13: the
 * record is cut short, or there are no bytes; 15: its kind is none of 1 to 15; 14: it has a map bit that its kind has
 * not. On these no bytes count as read, and every word stays; else come the event's own number and value, 6 for a
 * setting of 2^62 or more that the kind reads among them.
 */
struct hess_taken hess_record_bytes(const uint64_t settings[4], uint64_t slots[8][43][4], const uint8_t *event,
                                    size_t len);

/*
 * Writes the standing of a slot's path to `out`; the value is the count of bytes, at most 51, and bytes past them stay
 * as they are. Refused, with nothing written: 1, the slot is above 7; 2, it is empty; 16, `outlen` is too small. (A
 * compiler that is asked to be pedantic may warn, before C23, that a record which is not const is lent as one that is.)
 */
struct hess_reply hess_record_standing(const uint64_t slots[8][43][4], uint8_t slot, uint8_t *out, size_t outlen);

/* ---- a record of up to eight paths, from a file of events */

/*
 * Runs the events of a file, 32 bytes of settings and then records to the end, on a fresh record. Writes to `out` for
 * each event 16 bytes, the refusal number and the value, u64 each; then for each open slot from 0 to 7 one byte, its
 * number, and the bytes of its standing. The value is the count of bytes written; bytes past them stay as they are.
 * Refused, with nothing written: 13, the settings or a record are cut short; 6, a setting is 2^62 or more; 15 or 14,
 * the first record that can't be read has no kind of 1 to 15, or a map bit that its kind has not; 16, `outlen` is too
 * small.
 */
struct hess_reply hess_events(const uint8_t *file, size_t len, uint8_t *out, size_t outlen);

/* ---- identifiers and instants */

/* Whether identifier a comes after b: (a - b) mod 2^32 is 1 to 2^31 - 1. */
bool hess_after(uint32_t a, uint32_t b);

/* t + d; while that passes 2^64 - 1, d is halved, rounding down. 6: d is 2^62 or more. */
struct hess_reply hess_deadline(uint64_t t, uint64_t d);

/* now - from, 0 where the clock went back. */
uint64_t hess_elapsed(uint64_t now, uint64_t from);

/* ---- measures */

/* The ETX after one more probe, delivered or not: always within 1 and 100. */
double hess_fold(double etx, bool delivered);

/* etx * (1 + rtt_ms / 100). */
double hess_quality_index(double etx, double rtt_ms);

/* A duration in seconds. 6: it is 2^62 or more. */
struct hess_float_reply hess_seconds(uint64_t ns);

/* The score of a path with this ETX and least round trip. 6: the round trip is 2^62 or more. */
struct hess_float_reply hess_score(double etx, uint64_t rtt);

/* x, or the end of lo to hi that it is beyond; a NaN x stays one. Meant for numbers lo <= hi. */
double hess_clamp(double x, double lo, double hi);

/* The larger; a NaN gives the other; of equal ones, as two zeros, the first. */
double hess_max(double x, double y);

/* totalOrder (IEEE 754-2019, 5.10) of two bit patterns: a comes not after b. Any pattern, every NaN included. */
bool hess_total_bits(uint64_t a, uint64_t b);

/* The same order on floats, every NaN standing where a positive quiet one stands. */
bool hess_total(double a, double b);

/* ---- sizes and waiting */

/*
 * The length of the next probe of a path whose last size is `last` if `held`, and that has fallen or not. 5: `full` or
 * `last` is above 65,535, or `full` below 27.
 */
struct hess_reply hess_size(uint32_t full, bool fallen, bool held, uint32_t last);

/*
 * How long a probe waits: the largest of floor, 3 * last (if `timed`), and the smaller of 3 * largest (if `sampled`)
 * and cap. 6: `floor` or `cap` is 2^62 or more.
 */
struct hess_reply hess_timeout(uint64_t floor, uint64_t cap, bool timed, uint64_t last, bool sampled, uint64_t largest);

/*
 * The bytes of the largest frame: `link`; or `proven` + 36 where that is less, if `held` and the transport is not
 * `oriented` to connections. 5: `link`, or `proven` if `held`, is above 65,535.
 */
struct hess_reply hess_carried(uint32_t link, bool held, uint32_t proven, bool oriented);

/* ---- the choice: a field is eight rivals of 96 bytes, a pair is two, first the one to change to */

/*
 * The place of the rival to take. 13: `len` is not 768; 6: a round trip of 2^62 or more; 12: a rival's index is not its
 * place; 11: there is no rival.
 */
struct hess_reply hess_choose(const uint8_t *field, size_t len, double margin);

/*
 * The same of a field that lies in memory as words: eight rivals of twelve words, the numbers of hess_choose's bytes in
 * the same order; nothing but a pointer is handed over. There is no length, so no 13; else 6, 12 and 11 as above.
 */
struct hess_reply hess_choose_words(const uint64_t field[8][12], double margin);

/*
 * Writes two u64: whether any of the ranked rivals has a score, and the bits of the least. Gives 0; or 13, 6, 12 as
 * above; or 16, `outlen` is below 16.
 */
uint64_t hess_best(const uint8_t *field, size_t len, uint8_t *out, size_t outlen);

/* 1 if a change on score is held, else 0. 13: `len` is not 192; 6: a round trip of 2^62 or more. */
struct hess_reply hess_held(const uint8_t *pair, size_t len, double margin);

/* 1 if a change for a quicker medium is held, else 0. Refused as hess_held. */
struct hess_reply hess_waits(const uint8_t *pair, size_t len, double margin);

/*
 * Of a hold from `at` on, after so many reports: 1 if it holds at `now`, which is before `at` + `dwell` or while one of
 * two reports is owed, else 0. 6: `dwell` is 2^62 or more.
 */
struct hess_reply hess_hold(uint64_t at, uint8_t reports, uint64_t now, uint64_t dwell);

/* The tier of a role, modulo 4: 0 never, 1 backup, 2 normal, 3 preferred have the tiers 0, 1, 2, 2. */
uint64_t hess_tier(uint64_t role);

/* Whether medium a is quicker than b, both modulo 4: 0 BLE, 1 wired, 2 wireless, 3 unknown, which has no speed. */
bool hess_quicker(uint64_t a, uint64_t b);

#ifdef __cplusplus
}
#endif

#endif
