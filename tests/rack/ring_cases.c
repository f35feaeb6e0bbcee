/* The interrupt ring of examples/rack, case by case: the order of its calls, a full ring, a full mailbox and one that
 * drops, messages of every length, and counts that wrap around. */
#include "ring.h"

#include <stdio.h>
#include <string.h>

#define SLICE 3 /* ticks of a full slice */

enum { BOX = 3, COUNTED = 5 }; /* a mailbox, a semaphore */

static uint8_t state[CSENGADRUL_STATE_SIZE];
static uint8_t store[CSENGADRUL_STORE_SIZE];
static ring r;
static unsigned passed, failed;

static void expect(const char *what, int holds) {
    if (holds) {
        passed++;
        return;
    }
    failed++;
    printf("not so: %s\n", what);
}

static uint32_t drain(void) {
    return ring_drain(&r, state, sizeof state, store, sizeof store);
}

static int put_digit(int digit) {
    uint8_t message = (uint8_t)('0' + digit);
    return ring_put_send(&r, BOX, &message, 1);
}

/* An empty ring whose counts begin here, and a process that runs. */
static void begin(uint32_t count) {
    memset(&r, 0, sizeof r);
    r.put = r.taken = count;
    csengadrul_fresh_slice(state, sizeof state, SLICE);
    csengadrul_create(state, sizeof state, 1);
}

/* Whether the next message of the mailbox is this one; it is released. */
static int next_is(const void *message, size_t length) {
    uint8_t room[CSENGADRUL_MESSAGE_SIZE];
    csengadrul_receive(state, sizeof state, BOX);
    return csengadrul_read(state, sizeof state, store, sizeof store, room, sizeof room).number == length &&
           csengadrul_release(state, sizeof state).code == CSENGADRUL_DONE && memcmp(room, message, length) == 0;
}

static void in_order(void) {
    begin(0);
    expect("an empty ring makes no call", drain() == CSENGADRUL_DONE);
    expect("all are put", put_digit(1) && ring_put_signal(&r, COUNTED) && ring_put_tick(&r) && put_digit(2));
    expect("putting makes no call", state[CSENGADRUL_OFFSET_COUNT + 2 * COUNTED] == 0);
    expect("the calls are done", drain() == CSENGADRUL_DONE && r.taken == 4);
    expect("the signal arrived", state[CSENGADRUL_OFFSET_COUNT + 2 * COUNTED] == 1);
    expect("the tick arrived", state[CSENGADRUL_OFFSET_TICKS + 1] == SLICE - 1);
    expect("the sends arrived in order", next_is("1", 1) && next_is("2", 1));
}

static void full_ring(uint32_t count) {
    int i;
    begin(count);
    for (i = 0; i < RING_SIZE; i++) expect("there is room", ring_put_signal(&r, COUNTED));
    expect("a full ring refuses, and counts it", !ring_put_tick(&r) && r.lost == 1);
    expect("the calls are done", drain() == CSENGADRUL_DONE && r.taken == r.put);
    expect("each one once", state[CSENGADRUL_OFFSET_COUNT + 2 * COUNTED] == RING_SIZE);
    expect("there is room again", ring_put_tick(&r) && r.lost == 1);
}

static void full_mailbox(void) {
    int i;
    begin(0);
    for (i = 0; i <= CSENGADRUL_USUAL_CAPACITY; i++) put_digit(i);
    ring_put_signal(&r, COUNTED);
    expect("the mailbox is full", drain() == CSENGADRUL_MAILBOX_FULL && drain() == CSENGADRUL_MAILBOX_FULL);
    expect("what is behind waits", r.put - r.taken == 2 && state[CSENGADRUL_OFFSET_COUNT + 2 * COUNTED] == 0);
    expect("a message is taken", next_is("0", 1));
    expect("the rest is done", drain() == CSENGADRUL_DONE && state[CSENGADRUL_OFFSET_COUNT + 2 * COUNTED] == 1);
    for (i = 1; i <= CSENGADRUL_USUAL_CAPACITY; i++) expect("the order stays", next_is(&"012345678"[i], 1));
}

/* One that drops holds nothing up. */
static void dropping_mailbox(void) {
    int i;
    begin(0);
    csengadrul_mailbox(state, sizeof state, BOX, 3, CSENGADRUL_DROPS);
    for (i = 0; i < 8; i++) put_digit(i);
    ring_put_signal(&r, COUNTED);
    expect("all is done", drain() == CSENGADRUL_DONE && r.taken == r.put);
    expect("what is behind too", state[CSENGADRUL_OFFSET_COUNT + 2 * COUNTED] == 1);
    for (i = 5; i < 8; i++) expect("the newest are there, in order", next_is(&"01234567"[i], 1));
}

static void lengths(void) {
    static const uint8_t message[RING_BYTES + 1] = "0123456789abcdef";
    size_t length;
    begin(0);
    for (length = 0; length <= RING_BYTES; length++) {
        expect("it is put", ring_put_send(&r, BOX, length == 0 ? NULL : message, length) && drain() == CSENGADRUL_DONE);
        expect("it is whole", next_is(message, length));
    }
    expect("one too long is refused, and counted", !ring_put_send(&r, BOX, message, length) && r.lost == 1);
}

/* Numbers are handed on as they are. */
static void other_numbers(void) {
    begin(0);
    ring_put_signal(&r, 256 + COUNTED);
    expect("no semaphore", drain() == CSENGADRUL_NO_SEMAPHORE && r.put - r.taken == 1);
    begin(0);
    ring_put_send(&r, 256 + BOX, NULL, 0);
    expect("no mailbox", drain() == CSENGADRUL_NO_MAILBOX && r.put - r.taken == 1);
}

int main(void) {
    in_order();
    full_ring(0);
    full_ring(RING_SIZE / 2);
    full_ring((uint32_t)0 - RING_SIZE / 2);
    full_mailbox();
    dropping_mailbox();
    lengths();
    other_numbers();
    printf("%u passed, %u failed\n", passed, failed);
    return failed != 0;
}
