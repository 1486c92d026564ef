/* The fields of sixteen peers, kept in memory as words: filled by named numbers; then a choice for each peer, a report
   on the wired paths, and a choice for each again. docs/ENTRIES.md, "Rivals", has the words. */
#include <inttypes.h>
#include <stdio.h>
#include <string.h>

#include "hessiantalc.h"

#define PEERS 16
#define MARGIN 1.3
#define MS UINT64_C(1000000)

/* The words of a rival that are used here. */
enum { HELD = 0, INDEX = 1, SCORED = 2, SCORE = 3, TIMED = 4, RTT = 5, TIER = 10, MARKS = 11 };

/* Bits of the marks; the medium stands in them from bit 4 on. And a role. */
enum { PINNED = 2, FITS = 4, MEDIUM = 4 };
enum { WIRED = 1, WIRELESS = 2 };
enum { NORMAL = 2 };

/* The caller's own memory, 768 bytes a peer, each field from the beginning of a line of the cache. */
static _Alignas(64) uint64_t fields[PEERS][8][12];

/* A path in a place of a field, not yet measured. */
static uint64_t *path(uint64_t field[8][12], uint64_t place, uint64_t medium, uint64_t marks) {
    uint64_t *rival = field[place];
    rival[HELD] = 1;
    rival[INDEX] = place;
    rival[TIER] = hess_tier(NORMAL);
    rival[MARKS] = medium << MEDIUM | FITS | marks;
    return rival;
}

/* Its round trip is known. */
static void timed(uint64_t *rival, uint64_t rtt) {
    rival[TIMED] = 1;
    rival[RTT] = rtt;
}

/* Its score is known, by its ETX and that round trip. */
static void scored(uint64_t *rival, double etx) {
    struct hess_float_reply score = hess_score(etx, rival[RTT]);
    rival[SCORED] = score.number == 0;
    memcpy(&rival[SCORE], &score.value, sizeof score.value);
}

/* A wired path in place 0, the slower the higher the peer's number, and a wireless one in place 1. Peer 5 has the
   wireless one pinned, peer 9 no score, peer 12 no path. */
static void fill(void) {
    for (uint64_t peer = 0; peer < PEERS; peer++) {
        if (peer == 12)
            continue;
        uint64_t *wired = path(fields[peer], 0, WIRED, 0);
        uint64_t *wireless = path(fields[peer], 1, WIRELESS, peer == 5 ? PINNED : 0);
        timed(wired, 4 * peer * MS);
        timed(wireless, 5 * MS);
        if (peer != 9) {
            scored(wired, 1);
            scored(wireless, 1);
        }
    }
}

/* A report: the wired paths of even peers take three sends for each that arrives. */
static void report(void) {
    for (int peer = 0; peer < PEERS; peer += 2)
        if (fields[peer][0][SCORED])
            scored(fields[peer][0], 3);
}

/* The choice for a peer, in words. */
static const char *chosen(uint64_t field[8][12]) {
    static const char *const media[4] = {"BLE", "wired", "wireless", "unknown"};
    struct hess_reply r = hess_choose_words(field, MARGIN);
    if (r.number != 0)
        return r.number == 11 ? "no path" : "refused";
    return media[field[r.value][MARKS] >> MEDIUM & 3];
}

int main(void) {
    const char *before[PEERS];
    fill();
    for (int peer = 0; peer < PEERS; peer++)
        before[peer] = chosen(fields[peer]);
    report();
    for (int peer = 0; peer < PEERS; peer++)
        printf("peer %d: %s, after the report %s\n", peer, before[peer], chosen(fields[peer]));
    return 0;
}
