/* The most stack that one call of each hess_record_* takes, by a painted stack and by the stack pointer after each
   instruction; and two threads with a record each. `host/stack` builds and runs it (x86-64 Linux). */
#define _GNU_SOURCE
#include <inttypes.h>
#include <pthread.h>
#include <signal.h>
#include <ucontext.h>

#include "full.h"

/* The painted stack. */
#define STACK 16384
static _Alignas(64) uint8_t painted[STACK];

/* on_stack(body, top, flags) runs body there, with these flags of the processor: TRAP stops after each instruction.
   stub is called in place of a function: it says where the stack pointer stood, which is where the return address
   lies. */
#define TRAP 0x100
void on_stack(void (*body)(void), void *top, uint64_t flags);
void stub(void);
uint8_t *stood;
__asm__(".text\n"
        "on_stack: pushq %rbp\n movq %rsp, %rbp\n movq %rsi, %rsp\n"
        " pushfq\n orq %rdx, (%rsp)\n popfq\n call *%rdi\n pushfq\n andq $-257, (%rsp)\n popfq\n"
        " movq %rbp, %rsp\n popq %rbp\n ret\n"
        "stub: movq %rsp, stood(%rip)\n movq %rdi, %rax\n ret\n");

/* The lowest stack pointer of a call that stops after each instruction: the handler has a stack of its own. */
static uint8_t *lowest;
static void stopped(int signal, siginfo_t *info, void *context) {
    (void)signal, (void)info;
    uint8_t *at = (uint8_t *)((ucontext_t *)context)->uc_mcontext.gregs[REG_RSP];
    if (at >= painted && at < lowest)
        lowest = at;
}

static void stop_at_each(void) {
    static uint8_t other[65536];
    stack_t stack = {.ss_sp = other, .ss_size = sizeof other};
    struct sigaction action = {.sa_sigaction = stopped, .sa_flags = SA_SIGINFO | SA_ONSTACK};
    if (sigaltstack(&stack, NULL) != 0 || sigaction(SIGTRAP, &action, NULL) != 0)
        exit(2);
}

/* The functions, or the stub in the place of each. */
enum { SIZE, NEW, EVENT, WORDS, BYTES, STANDING, FUNCTIONS };
static const char *const names[FUNCTIONS] = {"size", "new", "event", "words", "bytes", "standing"};
struct functions {
    uint64_t (*size)(void);
    struct reply (*make)(uint64_t *, uint64_t *, uint64_t, uint64_t, uint64_t, uint64_t);
    struct reply (*event)(const uint64_t *, uint64_t *, uint8_t, uint8_t, uint8_t, uint64_t, uint64_t, uint32_t,
                          uint32_t, uint32_t);
    uint64_t (*words)(const uint64_t *, uint64_t *, const uint64_t *);
    struct taken (*bytes)(const uint64_t *, uint64_t *, const uint8_t *, size_t);
    struct reply (*standing)(const uint64_t *, uint8_t, uint8_t *, size_t);
};
static const struct functions ours = {hess_record_size,  hess_record_new,   hess_record_event,
                                      hess_record_words, hess_record_bytes, hess_record_standing};
static const struct functions stubs = {(void *)stub, (void *)stub, (void *)stub,
                                       (void *)stub, (void *)stub, (void *)stub};

/* One call: what the body below has to do, and the refusal that came of it. */
static struct {
    const struct functions *of;
    int function;
    struct event e;
    uint64_t words[4], *record;
    uint8_t bytes[32], out[64];
    size_t len, outlen;
    uint64_t number;
} job;

/* The call. Its own frame lies above the function's return address, and is not counted. */
static void body(void) {
    const struct functions *f = job.of;
    const struct event e = job.e;
    uint64_t *settings = job.record, *slots = job.record + 4;
    switch (job.function) {
    case SIZE: job.number = f->size() == 0; break;
    case NEW: job.number = f->make(settings, slots, e.at, e.span, e.at, e.span).number; break;
    case EVENT:
        job.number = f->event(settings, slots, e.kind, e.slot, e.flags, e.at, e.span, e.id, e.len, e.acked).number;
        break;
    case WORDS: job.number = f->words(settings, slots, job.words) >> 32; break;
    case BYTES: job.number = f->bytes(settings, slots, job.bytes, job.len).number; break;
    case STANDING: job.number = f->standing(slots, e.slot, job.out, job.outlen).number; break;
    }
}

/* The lowest byte that a call changed, on a stack of this paint. */
static uint8_t *deepest(uint8_t paint) {
    memset(painted, paint, STACK);
    on_stack(body, painted + STACK, 0);
    uint8_t *at = painted;
    while (*at == paint)
        at++;
    return at;
}

/* The bytes from the end of the return address down to the lowest byte written. With two paints no byte is written as
   it was. The record is put back before each call. */
static size_t written_by(int function, const uint64_t *before) {
    uint8_t *low[2];
    job.function = function;
    job.of = &stubs;
    on_stack(body, painted + STACK, 0);
    job.of = &ours;
    for (int n = 0; n < 2; n++) {
        memcpy(job.record, before, hess_record_size());
        low[n] = deepest(n == 0 ? 0xa5 : 0x5a);
    }
    return (size_t)(stood + 8 - (low[0] < low[1] ? low[0] : low[1]));
}

/* The same to the lowest stack pointer; 0 where the processor does not stop after each instruction, which is said. */
static size_t reserved_by(const uint64_t *before) {
    static bool stops = true;
    if (!stops)
        return 0;
    memcpy(job.record, before, hess_record_size());
    lowest = painted + STACK;
    on_stack(body, painted + STACK, TRAP);
    stops = lowest != painted + STACK;
    if (!stops) {
        fprintf(stderr, "stack: the processor does not stop after each instruction: what is written is measured\n");
        return 0;
    }
    return (size_t)(stood + 8 - lowest);
}

static uint64_t next(uint64_t *seed) {
    uint64_t z = *seed += 0x9e3779b97f4a7c15;
    z = (z ^ z >> 30) * 0xbf58476d1ce4e5b9;
    z = (z ^ z >> 27) * 0x94d049bb133111eb;
    return z ^ z >> 31;
}

static uint64_t pick(uint64_t *seed, const uint64_t *from, size_t many) { return from[next(seed) % many]; }
#define PICK(seed, ...) \
    pick(seed, (const uint64_t[]){__VA_ARGS__}, sizeof((const uint64_t[]){__VA_ARGS__}) / sizeof(uint64_t))

/* An event for a full record: of every kind, now and then of none, and such as are refused. */
static struct event any(uint64_t *seed) {
    uint8_t slot = (uint8_t)(next(seed) % 50 ? next(seed) % SLOTS : 8);
    struct event e = {.kind = (uint8_t)(next(seed) % 50 ? 1 + next(seed) % 15 : PICK(seed, 0, 16)), .slot = slot};
    e.at = PICK(seed, NOW, NOW, NOW + 1, NOW + SECOND, NOW + 9 * SECOND, NOW + 60 * SECOND, 0, UINT64_MAX);
    e.span = PICK(seed, e.at + 1, 9, SECOND, UINT64_C(1) << 62, UINT64_MAX);
    if (e.kind == CHOOSE)
        e.span = PICK(seed, 0x3ff0000000000000, 0x3ff4cccccccccccd, 0x4000000000000000, 0);
    e.id = (uint32_t)PICK(seed, WAITING(slot) + next(seed) % 9, LATE(slot) + next(seed) % 4, SOUGHT(slot), next(seed));
    e.len = (uint32_t)PICK(seed, 26, 27, 100, 1200, 1200, 65535, 65536);
    e.acked = (uint32_t)PICK(seed, 0, 100, 1200, 65535, 65536);
    e.flags = (uint8_t)(e.kind == OPEN ? next(seed) % 129 : next(seed) % 20 ? next(seed) % 2 : 2);
    return e;
}

/* The event as a file has it: map, kind, slot, and the fields that its kind has. */
static size_t bytes_of(struct event e, uint8_t *out) {
    static const uint8_t maps[17] = {0, 40, 15, 21, 33, 3, 32, 8, 5, 3, 9, 0, 0, 0, 0, 2, 0};
    const uint64_t fields[6] = {e.at, e.span, e.id, e.len, e.acked, e.flags};
    static const int widths[6] = {8, 8, 4, 2, 2, 1};
    uint8_t *at = out;
    *at++ = maps[e.kind];
    *at++ = e.kind;
    *at++ = e.slot;
    for (int n = 0; n < 6; n++)
        for (int i = 0; maps[e.kind] >> n & 1 && i < widths[n]; i++)
            *at++ = (uint8_t)(fields[n] >> 8 * i);
    return (size_t)(at - out);
}

/* The most of a function, written and reserved; by kind, accepted and refused. The first calls of each, and those that
   write lower than the others, stop after each instruction. */
#define STOPPING 2
struct most {
    size_t written, reserved;
    unsigned calls;
};
static struct most most[FUNCTIONS][17][2];

static size_t larger(size_t a, size_t b) { return a > b ? a : b; }
static size_t of(struct most m) { return larger(m.written, m.reserved); }

static void measure(int function, const uint64_t *before) {
    size_t written = written_by(function, before);
    int kind = function == EVENT || function == WORDS || function == BYTES ? job.e.kind : 0;
    struct most *m = &most[function][kind][job.number != 0];
    if (m->calls++ < STOPPING || written > m->written)
        m->reserved = larger(m->reserved, reserved_by(before));
    m->written = larger(m->written, written);
}

/* Every function on full records: the changes of one event in four stay for the next ones, to the next full record. */
static void measure_all(const uint64_t *full, unsigned events) {
    uint64_t seed = 17, *before = new_record();
    size_t size = hess_record_size();
    job.record = new_record();
    memcpy(before, full, size);
    for (unsigned n = 0; n < events; n++) {
        if (n % 50 == 0)
            memcpy(before, full, size);
        job.e = any(&seed);
        words_of(job.e, job.words);
        job.len = bytes_of(job.e, job.bytes);
        job.len -= n % 20 == 0;
        job.outlen = n % 9 == 0 ? n % 51 : sizeof job.out;
        for (int function = SIZE; function < FUNCTIONS; function++)
            measure(function, before);
        if (n % 4 == 0)
            hess_record_words(before, before + 4, job.words);
    }
    free(before);
    free(job.record);
}

/* Prints the most of each function, and what took it. */
static bool print_all(void) {
    static const char *const kinds[17] = {"any",   "open",  "probe", "answer", "poll",  "sample",
                                          "fold",  "prove", "search", "judge", "data",  "fresh",
                                          "thaw",  "sweep", "close", "choose", "kind 16"};
    /* what the caller puts on the stack beyond six numbers in registers */
    static const int arguments[FUNCTIONS] = {[EVENT] = 4 * 8};
    bool all = true;
    printf("| Function | bytes of stack | of them written | arguments above them | taken by | calls |\n");
    printf("|---|---|---|---|---|---|\n");
    for (int f = 0; f < FUNCTIONS; f++) {
        int kind = 0, refused = 0;
        unsigned calls = 0;
        size_t written = 0;
        for (int k = 0; k < 17; k++)
            for (int r = 0; r < 2; r++) {
                calls += most[f][k][r].calls;
                written = larger(written, most[f][k][r].written);
                if (of(most[f][k][r]) > of(most[f][kind][refused]))
                    kind = k, refused = r;
            }
        printf("| `hess_record_%s` | %zu | %zu | %d | %s%s | %u |\n", names[f], of(most[f][kind][refused]), written,
               arguments[f], kinds[kind], refused ? ", refused" : "", calls);
        all = all && of(most[f][kind][refused]) < STACK / 2;
    }
    printf("\n`hess_record_words` by kind, accepted and refused:");
    for (int k = 1; k < 16; k++) {
        printf("%s %s %zu and %zu", k == 1 ? "" : ",", kinds[k], of(most[WORDS][k][0]), of(most[WORDS][k][1]));
        all = all && most[WORDS][k][0].calls > 0 && most[WORDS][k][1].calls > 0;
    }
    printf(".\n");
    if (!all)
        fprintf(stderr, "stack: a kind was never accepted or never refused, or a call came near the painted stack's end\n");
    return all;
}

/* A thread's work: events on a record of its own, by words, numbers and bytes, and standings. */
#define LIST 100000
struct work {
    uint64_t seed, sum, *record;
};

static void *work(void *with) {
    struct work *w = with;
    uint64_t seed = w->seed, *r = w->record;
    w->sum = 0;
    for (int n = 0; n < LIST; n++) {
        struct event e = any(&seed);
        uint64_t words[4], answer;
        uint8_t bytes[32], out[64] = {0};
        words_of(e, words);
        if (n % 3 == 0) {
            answer = hess_record_words(r, r + 4, words);
        } else if (n % 3 == 1) {
            struct reply a =
                hess_record_event(r, r + 4, e.kind, e.slot, e.flags, e.at, e.span, e.id, e.len, e.acked);
            answer = a.number << 32 | a.value;
        } else {
            struct taken a = hess_record_bytes(r, r + 4, bytes, bytes_of(e, bytes));
            answer = (a.number << 32 | a.value) ^ a.read << 8;
        }
        struct reply told = hess_record_standing(r + 4, e.slot, out, sizeof out);
        answer ^= told.value << 16 ^ told.number << 48;
        for (int i = 0; i < 64; i++)
            answer = answer * 31 + out[i];
        w->sum = (w->sum ^ answer) * 0x100000001b3;
    }
    return NULL;
}

/* Whether two threads at once come to what each comes to alone. */
static bool at_once(const uint64_t *full, uint64_t first, uint64_t second) {
    struct work w[4] = {{.seed = first}, {.seed = second}, {.seed = first}, {.seed = second}};
    size_t size = hess_record_size();
    pthread_t threads[2];
    for (int n = 0; n < 4; n++)
        memcpy(w[n].record = new_record(), full, size);
    for (int n = 0; n < 2; n++)
        if (pthread_create(&threads[n], NULL, work, &w[n]) != 0)
            exit(2);
    for (int n = 0; n < 2; n++)
        pthread_join(threads[n], NULL);
    bool same = true;
    for (int n = 0; n < 2; n++) {
        work(&w[n + 2]);
        same = same && w[n].sum == w[n + 2].sum && memcmp(w[n].record, w[n + 2].record, size) == 0;
    }
    for (int n = 0; n < 4; n++)
        free(w[n].record);
    return same;
}

int main(void) {
    uint64_t *full = record_by(fill);
    stop_at_each();
    measure_all(full, 10000);
    bool all = print_all(), same = true;
    for (uint64_t n = 0; n < 6; n++)
        same = same && at_once(full, n, n % 2 == 0 ? n : n + 100);
    printf("two threads, a record each, six times %d events at once: %s\n", LIST,
           same ? "the answers, standings and words that each comes to alone" : "other answers or words than alone");
    free(full);
    return all && same ? 0 : 1;
}
