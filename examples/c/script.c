/*
 * Single functions; and, by the function of the test's own library, calls on one path in a script: a probe is sent and
 * answered. docs/ENTRIES.md has the calls.
 */
#include <inttypes.h>
#include <stdio.h>

#include "hessiantalc.h"
#include "hesstest.h"

int main(void) {
    printf("identifier 0 after 2^32 - 1: %d\n", hess_after(0, UINT32_MAX));
    struct hess_reply late = hess_deadline(UINT64_MAX - 10, 25);
    printf("25 after 2^64 - 11: refusal %" PRIu64 ", 2^64 - %" PRIu64 "\n", late.number, 0 - late.value);

    uint64_t calls[2][6] = {
        {2, 5, 9, 100, 7, 0}, /* send at 5, due at 9, 100 bytes, first identifier 7 */
        {3, 7, 0, 0, 0, 0},   /* answer 7 */
    };
    uint64_t out[2 * 6 + 225];
    uint64_t number = hess_script((const uint8_t *)calls, sizeof calls, (uint8_t *)out, sizeof out);
    if (number != 0) {
        printf("the script: refusal %" PRIu64 "\n", number);
        return 1;
    }
    printf("send: identifier %" PRIu64 "\n", out[1]);
    printf("answer: %s, probe %" PRIu64 "\n", out[7] == 1 ? "in time" : "late", out[8]);
    printf("the image: next identifier %" PRIu64 "\n", out[12 + 61]);
    return 0;
}
