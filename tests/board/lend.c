#define _DEFAULT_SOURCE /* sys/mman.h has MAP_ANONYMOUS then, in C89 too */
#include "lend.h"

#include <string.h>
#include <sys/mman.h>

#define PAGE 65536u
#define GUARD 256u
#define GUARD_BYTE 0xa5

static uint8_t *page[KINDS];

int lend_begin(void) {
    int kind;
    for (kind = 0; kind < KINDS; kind++) {
        uint8_t *at = mmap(NULL, 3 * PAGE, PROT_NONE, MAP_PRIVATE | MAP_ANONYMOUS, -1, 0);
        if (at == MAP_FAILED || mprotect(at + PAGE, PAGE, PROT_READ | PROT_WRITE) != 0) return 0;
        page[kind] = at + PAGE;
    }
    return 1;
}

static int takes(enum call call, int kind) {
    switch (kind) {
    case STATE: return 1;
    case STORE: return call == SEND || call == READ;
    case MESSAGE: return call == SEND;
    case ROOM: return call == READ;
    default: return call == LISTING;
    }
}

static uint8_t *pointer(int kind, const area *a) {
    switch (a->lies) {
    case AT_THE_END: return page[kind] + PAGE - a->bytes;
    case AT_THE_START: return page[kind];
    case OUT_OF_REACH: return page[kind] + PAGE;
    default: return NULL;
    }
}

static uint8_t *guard(uint8_t *at, const area *a) {
    return a->lies == AT_THE_END ? at - GUARD : at + a->bytes;
}

static int is_there(const area *a) {
    return a->lies == AT_THE_END || a->lies == AT_THE_START;
}

/* The question, whose six numbers come back in a struct of its own. */
__attribute__((noinline)) static csengadrul_answer ask(const uint8_t *state, size_t length, uint32_t name, csengadrul_reason *reason) {
    csengadrul_answer answer;
    *reason = csengadrul_why(state, length, name);
    answer.code = reason->code;
    answer.number = reason->number;
    answer.running = reason->running;
    return answer;
}

__attribute__((noinline)) static csengadrul_answer make(enum call call, numbers given, uint8_t *at[KINDS], area areas[KINDS],
                                                        csengadrul_reason *reason) {
    uint8_t *state = at[STATE];
    size_t length = areas[STATE].told;
    uint32_t number = given.number;
    csengadrul_answer none = {~(uint32_t)0, ~(uint32_t)0, ~(uint32_t)0};
    switch (call) {
    case FRESH: return csengadrul_fresh(state, length);
    case CREATE: return csengadrul_create(state, length, number);
    case STOP: return csengadrul_stop(state, length, number);
    case END: return csengadrul_end(state, length);
    case YIELD: return csengadrul_yield(state, length);
    case CLASS: return csengadrul_class(state, length, number);
    case TICK: return csengadrul_tick(state, length);
    case SEND:
        return csengadrul_send(state, length, at[STORE], areas[STORE].told, number, at[MESSAGE], areas[MESSAGE].told);
    case RECEIVE: return csengadrul_receive(state, length, number);
    case READ: return csengadrul_read(state, length, at[STORE], areas[STORE].told, at[ROOM], areas[ROOM].told);
    case RELEASE: return csengadrul_release(state, length);
    case SIGNAL: return csengadrul_signal(state, length, number);
    case WAIT: return csengadrul_wait(state, length, number);
    case LISTING: return csengadrul_listing(state, length, (csengadrul_row *)(void *)at[ROWS], areas[ROWS].told);
    case WHY: return ask(state, length, number, reason);
    case FRESH_SLICE: return csengadrul_fresh_slice(state, length, number);
    case MAILBOX: return csengadrul_mailbox(state, length, number, given.capacity, given.mode);
    default: return none;
    }
}

static size_t deepest;

#ifdef WATCH_STACK
#define PAINTED 8192
#define WORDS (PAINTED / sizeof(uint64_t))
#define PAINT 0x9e9e9e9eu

static volatile uint64_t *lowest;

/* Paints the stack that lies below the caller's. */
__attribute__((noinline)) static void paint(void) {
    volatile uint64_t below[WORDS];
    size_t i;
    for (i = 0; i < WORDS; i++) below[i] = PAINT;
    lowest = below;
}

/* How much of it has lost its paint. */
__attribute__((noinline)) static void look(void) {
    size_t i = 0;
    while (i < WORDS && lowest[i] == PAINT) i++;
    if (PAINTED - i * sizeof *lowest > deepest) deepest = PAINTED - i * sizeof *lowest;
}
#else
#define paint()
#define look()
#endif

size_t lend_deepest(void) {
    return deepest;
}

outcome lend(enum call call, numbers given, area areas[KINDS]) {
    static uint8_t untouched[GUARD];
    uint8_t *at[KINDS];
    outcome result;
    int kind;
    memset(untouched, GUARD_BYTE, GUARD);
    for (kind = 0; kind < KINDS; kind++) {
        area *a = &areas[kind];
        at[kind] = pointer(kind, a);
        if (!takes(call, kind) || !is_there(a)) continue;
        memcpy(at[kind], a->content, a->bytes);
        memset(guard(at[kind], a), GUARD_BYTE, GUARD);
    }
    memset(&result.reason, 0xff, sizeof result.reason);
    paint();
    result.answer = make(call, given, at, areas, &result.reason);
    look();
    result.changed = 0;
    result.escaped = 0;
    for (kind = 0; kind < KINDS; kind++) {
        area *a = &areas[kind];
        if (!takes(call, kind) || !is_there(a)) continue;
        if (memcmp(guard(at[kind], a), untouched, GUARD) != 0) result.escaped |= 1u << kind;
        if (memcmp(at[kind], a->content, a->bytes) != 0) result.changed |= 1u << kind;
        memcpy(a->content, at[kind], a->bytes);
    }
    return result;
}
