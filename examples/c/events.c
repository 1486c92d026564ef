/* Document 01's five events on a fresh record: the replies, and the standing of the open slot. docs/ENTRIES.md has the
   layouts. */
#include <inttypes.h>
#include <stdio.h>
#include <string.h>

#include "hessiantalc.h"

/* The next bytes of a file, and where they end. */
static uint8_t file[128];
static size_t len;

/* Appends x in so many bytes, the lowest first. */
static void put(uint64_t x, int bytes) {
    for (int i = 0; i < bytes; i++)
        file[len++] = (uint8_t)(x >> 8 * i);
}

/* Appends what every record begins with: which fields follow, the kind, the slot. */
static void put_head(int map, int kind, int slot) {
    put(map, 1);
    put(kind, 1);
    put(slot, 1);
}

/* The five events, after four settings of 1 s. */
static void put_events(void) {
    for (int i = 0; i < 4; i++)
        put(1000000000, 8);
    put_head(40, 1, 0); /* open: length and flags follow */
    put(100, 2);
    put(32, 1);
    put_head(6, 2, 0); /* probe: due and draw; its instant and length are 0 */
    put(9, 8);
    put(7, 4);
    for (int i = 0; i < 2; i++) { /* answer 7, twice */
        put_head(4, 3, 0);
        put(7, 4);
    }
    put_head(2, 15, 0); /* choose: the bits of the margin, 1 */
    put(0x3ff0000000000000, 8);
}

/* Takes a number of so many bytes, the lowest first. */
static uint64_t take(const uint8_t **at, int bytes) {
    uint64_t x = 0;
    for (int i = 0; i < bytes; i++)
        x |= (uint64_t)(*at)[i] << 8 * i;
    *at += bytes;
    return x;
}

/* Takes a standing and prints the fields that it has. */
static void print_standing(const uint8_t **at) {
    static const struct { const char *name; int bytes; } fields[6] = {
        {"last RTT", 8}, {"least RTT", 8}, {"base RTT", 8}, {"proven", 2}, {"answered", 4}, {"quiet since", 8},
    };
    uint64_t map = take(at, 1);
    for (int i = 0; i < 6; i++)
        if (map >> i & 1)
            printf(" %s %" PRIu64 ",", fields[i].name, take(at, fields[i].bytes));
    uint64_t bits = take(at, 8);
    double etx;
    memcpy(&etx, &bits, sizeof etx);
    printf(" ETX %g,", etx);
    printf(" misses %" PRIu64 "\n", take(at, 4));
}

int main(void) {
    put_events();
    uint8_t out[5 * 16 + 8 * 52]; /* a reply for each event; eight standings of at most 51 bytes with their slots */
    struct hess_reply r = hess_events(file, len, out, sizeof out);
    if (r.number != 0) {
        printf("the file: refusal %" PRIu64 "\n", r.number);
        return 1;
    }
    const uint8_t *at = out;
    for (int i = 1; i <= 5; i++) {
        uint64_t number = take(&at, 8), value = take(&at, 8);
        printf("event %d: refusal %" PRIu64 ", value %" PRIu64 "\n", i, number, value);
    }
    while (at < out + r.value) {
        printf("slot %d:", (int)take(&at, 1));
        print_standing(&at);
    }
    return 0;
}
