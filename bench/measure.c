/* One program for four kernels behind the board's functions: the board, in_place.c, checked.c and flat.c.
 *
 *   measure answers SEED CALLS      makes random calls and prints every answer, every message read and all rows listed,
 *                                   and after each call why some process is where it is; then it has names return
 *   measure damage SEED IMAGES      prints whether each of that many damaged images is refused (not in_place)
 *   measure names                   prints the names of the calls below
 *   measure make NAME TIMES MADE    restores the same prepared state so many times, and makes that call in it
 *                                   the first MADE times
 */
#include "csengadrul.h"

#include <stdio.h>
#include <stdlib.h>
#include <string.h>

#define AREA 576           /* enough for an image, and for the struct of in_place.c */
#define LONGEST_TRIED 4200 /* bytes of a message that is tried: some are refused */
#define SLICE 3            /* ticks of a full slice, where calls are counted */
#define FIRST(number) ((number) + CSENGADRUL_BIRTHS) /* the name of the first process of a number */
#define S state, CSENGADRUL_STATE_SIZE
#define STORE store, sizeof store

static union {
    uint8_t bytes[AREA];
    uint64_t aligned;
} lent, prepared;
static uint8_t *const state = lent.bytes;
static uint8_t store[CSENGADRUL_STORE_SIZE], message[LONGEST_TRIED], room[LONGEST_TRIED];
static csengadrul_row rows[CSENGADRUL_PROCESSES];
static uint32_t names[CSENGADRUL_PROCESSES]; /* the last name of each number */

static uint32_t seed;

static uint32_t below(uint32_t limit) {
    seed = seed * 1664525u + 1013904223u;
    return (uint32_t)((uint64_t)(seed >> 4) * limit >> 28);
}

/* Mostly small numbers, so that queues grow; now and then one past the last. */
static uint32_t pick(uint32_t limit) {
    return below(8) ? below(4) % limit : below(limit + 1);
}

/* Mostly the last name of a number; now and then an earlier one, the number alone, or one that another
 * width would take for it. */
static uint32_t pick_name(uint32_t number) {
    switch (below(10)) {
    case 0: return names[number] - CSENGADRUL_BIRTHS;
    case 1: return number;
    case 2: return names[number] + CSENGADRUL_PROCESSES;
    case 3: return names[number] + CSENGADRUL_BIRTHS * CSENGADRUL_BIRTHS;
    default: return names[number];
    }
}

static csengadrul_answer create(uint32_t class_number) {
    csengadrul_answer a = csengadrul_create(S, class_number);
    if (a.code == CSENGADRUL_DONE) names[CSENGADRUL_NUMBER(a.number)] = a.number;
    return a;
}

static csengadrul_answer begin(uint32_t slice) {
    csengadrul_answer a = csengadrul_fresh_slice(S, slice);
    uint32_t i;
    for (i = 0; a.code == CSENGADRUL_DONE && i < CSENGADRUL_PROCESSES; i++) names[i] = i;
    return a;
}

/* Mostly a small capacity, so that mailboxes fill; now and then any, or one that is refused. */
static csengadrul_answer set_mailbox(void) {
    uint32_t mailbox = pick(CSENGADRUL_MAILBOXES);
    uint32_t capacity = below(4) ? 1 + below(4) : below(CSENGADRUL_LARGEST_CAPACITY + 2);
    uint32_t mode = below(8) ? below(2) : below(4);
    return csengadrul_mailbox(S, mailbox, capacity, mode);
}

/* Mostly a short message; now and then one of several buffers, or one too long. */
static uint32_t random_length(void) {
    if (below(8)) return below(20);
    return below(2) ? below(1600) : below(LONGEST_TRIED + 1);
}

/* So many bytes are shown of the room: the message read, or the whole table of rows. */
static csengadrul_answer random_call(uint32_t *shown) {
    uint32_t length, i;
    csengadrul_answer a;
    *shown = 0;
    switch (below(22)) {
    case 0:
    case 1:
    case 2: return create(pick(CSENGADRUL_CLASSES));
    case 3: return below(4) ? csengadrul_tick(S) : csengadrul_stop(S, pick_name(below(CSENGADRUL_PROCESSES)));
    case 4: return below(4) ? csengadrul_tick(S) : csengadrul_end(S);
    case 5: return csengadrul_yield(S);
    case 6: return csengadrul_class(S, pick(CSENGADRUL_CLASSES));
    case 7:
    case 8: return csengadrul_tick(S);
    case 9:
    case 10:
    case 11:
    case 12:
        length = random_length();
        for (i = 0; i < length; i++) message[i] = (uint8_t)below(256);
        return csengadrul_send(S, STORE, pick(CSENGADRUL_MAILBOXES), message, length);
    case 13:
    case 14: return csengadrul_receive(S, pick(CSENGADRUL_MAILBOXES));
    case 15:
        a = csengadrul_read(S, STORE, room, below(2) ? CSENGADRUL_MESSAGE_SIZE : random_length());
        if (a.code == CSENGADRUL_DONE) *shown = a.number;
        return a;
    case 16: return csengadrul_release(S);
    case 17:
    case 18: return csengadrul_signal(S, pick(CSENGADRUL_SEMAPHORES));
    case 19:
        a = csengadrul_listing(S, rows, below(8) ? CSENGADRUL_PROCESSES : below(CSENGADRUL_PROCESSES));
        memcpy(room, rows, sizeof rows);
        *shown = sizeof rows;
        return a;
    case 20: return set_mailbox();
    default: return csengadrul_wait(S, pick(CSENGADRUL_SEMAPHORES));
    }
}

static void print_answer(csengadrul_answer a) {
    printf("%lu %lu %lu", (unsigned long)a.code, (unsigned long)a.number, (unsigned long)a.running);
}

static void print_reason(uint32_t name) {
    csengadrul_reason r = csengadrul_why(S, name);
    printf(" why %lu %lu %lu %lu %lu %lu", (unsigned long)r.code, (unsigned long)r.number, (unsigned long)r.running,
           (unsigned long)r.kind, (unsigned long)r.which, (unsigned long)r.ahead);
}

/* Mostly with the slice above; now and then with another, or with one that is refused, and then the state stays. */
static csengadrul_answer start(void) {
    return begin(below(8) ? SLICE : below(CSENGADRUL_LONGEST_SLICE + 40));
}

/* Process 1 is born and stopped until it has had every birth count, and some again. */
static void births(void) {
    uint32_t birth;
    begin(SLICE);
    for (birth = 0; birth < CSENGADRUL_BIRTHS + 10; birth++) {
        print_answer(create(2));
        print_reason(pick_name(1));
        printf("\n");
        print_answer(csengadrul_stop(S, pick_name(1)));
        print_reason(pick_name(1));
        printf("\n");
        csengadrul_stop(S, names[1]);
    }
}

static void answers(unsigned long calls) {
    unsigned long i;
    uint32_t shown = 0, j;
    begin(CSENGADRUL_USUAL_SLICE);
    for (i = 0; i < calls; i++) {
        csengadrul_answer a = i % 500 ? random_call(&shown) : start();
        print_answer(a);
        for (j = 0; i % 500 && j < shown; j++) printf(" %02x", room[j]);
        print_reason(pick_name((uint32_t)i % CSENGADRUL_PROCESSES));
        printf("\n");
    }
    births();
}

static void damage(unsigned long images) {
    unsigned long i;
    uint32_t shown, changes;
    begin(SLICE);
    for (i = 0; i < images; i++) {
        random_call(&shown);
        memcpy(prepared.bytes, state, AREA);
        for (changes = below(3); changes < 3; changes++) {
            uint8_t *at = &state[below(CSENGADRUL_STATE_SIZE)];
            *at = (uint8_t)(below(3) ? *at ^ 1u << below(7) : below(70));
        }
        printf("%lu\n", (unsigned long)csengadrul_tick(S).code);
        memcpy(state, prepared.bytes, AREA);
    }
}

/* Process 9 of class 2 runs; 12 is ready behind it, four each in classes 0 and 1; 3 waits at semaphore
 * 5, 6 at mailbox 4; mailbox 3 has five messages of 16 bytes, mailbox 7, which drops, the three of 512
 * that it takes; semaphore 6 counts 2. */
static void prepare(void) {
    uint32_t i;
    csengadrul_fresh_slice(S, SLICE);
    for (i = 0; i < 12; i++) csengadrul_create(S, i % 3);
    csengadrul_wait(S, 5);
    csengadrul_receive(S, 4);
    csengadrul_mailbox(S, 7, 3, CSENGADRUL_DROPS);
    for (i = 0; i < 5; i++) csengadrul_send(S, STORE, 3, message, 16);
    for (i = 0; i < 3; i++) csengadrul_send(S, STORE, 7, message, 512);
    csengadrul_signal(S, 6);
    csengadrul_signal(S, 6);
}

static void prepare_nobody(void) {
    csengadrul_fresh_slice(S, SLICE);
}

/* So many processes, each waiting: in one queue all of them, or each in a queue of its own, at the mailboxes first. */
static void prepare_deep(uint32_t processes) {
    uint32_t i;
    csengadrul_fresh_slice(S, SLICE);
    for (i = 0; i < processes; i++) {
        csengadrul_create(S, 0);
        csengadrul_wait(S, 5);
    }
}

static void prepare_spread(uint32_t processes) {
    uint32_t i;
    csengadrul_fresh_slice(S, SLICE);
    for (i = 0; i < processes; i++) {
        csengadrul_create(S, 0);
        if (i < CSENGADRUL_MAILBOXES) csengadrul_receive(S, i);
        else csengadrul_wait(S, i - CSENGADRUL_MAILBOXES);
    }
}

static void prepare_12_deep(void) {
    prepare_deep(12);
}

static void prepare_12_spread(void) {
    prepare_spread(12);
}

static void prepare_31_deep(void) {
    prepare_deep(31);
}

static void prepare_31_spread(void) {
    prepare_spread(31);
}

/* A free buffer's bit is off. */
static void prepare_damaged(void) {
    prepare();
    state[410] ^= 0x80;
}

static void prepare_last_tick(void) {
    uint32_t i;
    prepare();
    for (i = 1; i < SLICE; i++) csengadrul_tick(S);
}

static void prepare_hand_16(void) {
    prepare();
    csengadrul_receive(S, 3);
}

static void prepare_hand_512(void) {
    prepare();
    csengadrul_receive(S, 7);
}

static void prepare_hand_4096(void) {
    prepare();
    csengadrul_send(S, STORE, 9, message, 4096);
    csengadrul_receive(S, 9);
}

#define LISTING csengadrul_listing(S, rows, CSENGADRUL_PROCESSES)

/* name in the table, how the state is prepared, the call, the code that it gives */
#define CALLS(row) \
    row("fresh", prepare, csengadrul_fresh(S), CSENGADRUL_DONE) \
    row("create", prepare, csengadrul_create(S, 2), CSENGADRUL_DONE) \
    row("create, preempting", prepare, csengadrul_create(S, 3), CSENGADRUL_DONE) \
    row("stop", prepare, csengadrul_stop(S, FIRST(7)), CSENGADRUL_DONE) \
    row("end", prepare, csengadrul_end(S), CSENGADRUL_DONE) \
    row("yield", prepare, csengadrul_yield(S), CSENGADRUL_DONE) \
    row("class", prepare, csengadrul_class(S, 1), CSENGADRUL_DONE) \
    row("tick", prepare, csengadrul_tick(S), CSENGADRUL_DONE) \
    row("tick, the last", prepare_last_tick, csengadrul_tick(S), CSENGADRUL_DONE) \
    row("mailbox", prepare, csengadrul_mailbox(S, 9, 4, CSENGADRUL_DROPS), CSENGADRUL_DONE) \
    row("send of 16 bytes", prepare, csengadrul_send(S, STORE, 3, message, 16), CSENGADRUL_DONE) \
    row("send of 16 bytes, dropping", prepare, csengadrul_send(S, STORE, 7, message, 16), CSENGADRUL_DONE) \
    row("send of 512 bytes", prepare, csengadrul_send(S, STORE, 3, message, 512), CSENGADRUL_DONE) \
    row("send of 4096 bytes", prepare, csengadrul_send(S, STORE, 3, message, 4096), CSENGADRUL_DONE) \
    row("send of 16 bytes to a waiter", prepare, csengadrul_send(S, STORE, 4, message, 16), CSENGADRUL_DONE) \
    row("receive", prepare, csengadrul_receive(S, 3), CSENGADRUL_DONE) \
    row("receive, waiting", prepare, csengadrul_receive(S, 9), CSENGADRUL_WAITS) \
    row("read of 16 bytes", prepare_hand_16, csengadrul_read(S, STORE, room, 4096), CSENGADRUL_DONE) \
    row("read of 512 bytes", prepare_hand_512, csengadrul_read(S, STORE, room, 4096), CSENGADRUL_DONE) \
    row("read of 4096 bytes", prepare_hand_4096, csengadrul_read(S, STORE, room, 4096), CSENGADRUL_DONE) \
    row("release", prepare_hand_16, csengadrul_release(S), CSENGADRUL_DONE) \
    row("release of 4096 bytes", prepare_hand_4096, csengadrul_release(S), CSENGADRUL_DONE) \
    row("signal", prepare, csengadrul_signal(S, 6), CSENGADRUL_DONE) \
    row("signal, waking", prepare, csengadrul_signal(S, 5), CSENGADRUL_DONE) \
    row("wait", prepare, csengadrul_wait(S, 6), CSENGADRUL_DONE) \
    row("wait, waiting", prepare, csengadrul_wait(S, 9), CSENGADRUL_WAITS) \
    row("listing", prepare, LISTING, CSENGADRUL_DONE) \
    row("listing of nobody", prepare_nobody, LISTING, CSENGADRUL_DONE) \
    row("listing of 12 in one queue", prepare_12_deep, LISTING, CSENGADRUL_DONE) \
    row("listing of 12 in a queue each", prepare_12_spread, LISTING, CSENGADRUL_DONE) \
    row("listing of 31 in one queue", prepare_31_deep, LISTING, CSENGADRUL_DONE) \
    row("listing of 31 in a queue each", prepare_31_spread, LISTING, CSENGADRUL_DONE) \
    row("why of a waiter", prepare, csengadrul_why(S, FIRST(6)), CSENGADRUL_DONE) \
    row("why of the fourth in a queue", prepare, csengadrul_why(S, FIRST(10)), CSENGADRUL_DONE) \
    row("refused: listing of 31 rows", prepare, csengadrul_listing(S, rows, 31), CSENGADRUL_SHORT_ROOM) \
    row("refused: yield of nobody", prepare_nobody, csengadrul_yield(S), CSENGADRUL_NO_CALLER) \
    row("refused: a damaged state", prepare_damaged, csengadrul_yield(S), CSENGADRUL_NOT_SOUND)

#define PRINT_NAME(name, before, call, code) printf("%s\n", name);

/* Restores the state so many times, and makes the call in the first of them. */
#define REPEAT(name, before, call, expected) \
    if (strcmp(wanted, name) == 0) { \
        before(); \
        memcpy(prepared.bytes, state, AREA); \
        for (i = 0; i < times; i++) { \
            memcpy(state, prepared.bytes, AREA); \
            if (i < made) good &= (call).code == expected; \
        } \
        return good; \
    }

static int repeat(const char *wanted, int times, int made) {
    int i, good = 1;
    CALLS(REPEAT)
    return 0;
}

int main(int words, char **word) {
    if (words == 2 && strcmp(word[1], "names") == 0) {
        CALLS(PRINT_NAME)
        return 0;
    }
    if (words == 5 && strcmp(word[1], "make") == 0) return !repeat(word[2], atoi(word[3]), atoi(word[4]));
    if (words != 4) return 2;
    seed = (uint32_t)atoi(word[2]);
    if (strcmp(word[1], "answers") == 0) answers((unsigned long)atoi(word[3]));
    else if (strcmp(word[1], "damage") == 0) damage((unsigned long)atoi(word[3]));
    else return 2;
    return 0;
}
