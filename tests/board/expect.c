/* See expect.h. Of a call that is accepted, what stands of buffers after it is foretold: which are free, the chains
 * and the lengths; and of a send the whole store. */
#include "expect.h"

#include <stdio.h>
#include <string.h>

uint8_t state[CSENGADRUL_STATE_SIZE + 1];
uint8_t store[CSENGADRUL_STORE_SIZE + 1];
uint8_t message[CSENGADRUL_MESSAGE_SIZE + 1];
uint8_t room[CSENGADRUL_MESSAGE_SIZE + 8];
csengadrul_row rows[TABLE_ROWS];

static uint8_t state_before[sizeof state];
static uint8_t store_before[sizeof store];
static uint8_t message_before[sizeof message];
static uint8_t room_before[sizeof room];

static area areas[KINDS];
enum lies side;
unsigned passed, failed;
unsigned long codes_seen;
uint8_t births[CSENGADRUL_PROCESSES];
static uint32_t dropped; /* the buffers of the message that the send at hand is to drop, a bit each */

void count(int good, const char *what) {
    if (good) {
        passed++;
        return;
    }
    failed++;
    printf("not so: %s (areas against the %s)\n", what, side == AT_THE_END ? "end" : "start");
}

void lay(enum kind kind, enum lies lies, size_t told, size_t bytes) {
    areas[kind].lies = lies;
    areas[kind].told = told;
    areas[kind].bytes = bytes;
}

void usual(void) {
    lay(STATE, side, CSENGADRUL_STATE_SIZE, CSENGADRUL_STATE_SIZE);
    lay(STORE, side, CSENGADRUL_STORE_SIZE, CSENGADRUL_STORE_SIZE);
    lay(MESSAGE, side, 3, 3);
    lay(ROOM, side, CSENGADRUL_MESSAGE_SIZE, CSENGADRUL_MESSAGE_SIZE);
    lay(ROWS, side, CSENGADRUL_PROCESSES, CSENGADRUL_PROCESSES * sizeof(csengadrul_row));
    areas[STATE].content = state;
    areas[STORE].content = store;
    areas[MESSAGE].content = message;
    areas[ROOM].content = room;
    areas[ROWS].content = (uint8_t *)rows;
}

static int has_bit(const uint8_t *bits, size_t i) {
    return bits[i / 8] >> (i % 8) & 1;
}

static int is_free(const uint8_t *image, size_t buffer) {
    return has_bit(image + CSENGADRUL_OFFSET_FREE_BITS, buffer);
}

/* Writes into the state before a call what it must have of a buffer after it. */
static void put_buffer(size_t buffer, int free, size_t length, size_t next) {
    uint8_t *bits = &state_before[CSENGADRUL_OFFSET_FREE_BITS + buffer / 8], bit = (uint8_t)(1u << buffer % 8);
    *bits = (uint8_t)(free ? *bits | bit : *bits & ~bit);
    state_before[CSENGADRUL_OFFSET_LENGTH + 2 * buffer] = (uint8_t)length;
    state_before[CSENGADRUL_OFFSET_LENGTH + 2 * buffer + 1] = (uint8_t)(length >> 8);
    state_before[CSENGADRUL_OFFSET_CHAIN + buffer] = (uint8_t)next;
}

static void put_free(uint32_t buffers) {
    size_t b;
    for (b = 0; b < CSENGADRUL_BUFFERS; b++)
        if (buffers >> b & 1) put_buffer(b, 1, 0, b);
}

/* The buffers of the message in the hand of a process before the call, a bit each. */
static uint32_t in_hand(size_t process) {
    size_t b;
    uint32_t buffers = 0;
    if (process >= CSENGADRUL_PROCESSES || !has_bit(state_before + CSENGADRUL_OFFSET_FULL_BITS, process)) return 0;
    b = state_before[CSENGADRUL_OFFSET_HAND + process];
    for (; b < CSENGADRUL_BUFFERS && !(buffers >> b & 1); b = state_before[CSENGADRUL_OFFSET_CHAIN + b])
        buffers |= 1u << b;
    return buffers;
}

/* The buffers that a call gives back. */
static uint32_t given_back(enum call call, numbers given) {
    switch (call) {
    case SEND: return dropped;
    case STOP: return in_hand(CSENGADRUL_NUMBER(given.number));
    case END:
    case RELEASE: return in_hand(state_before[CSENGADRUL_OFFSET_RUNNING]);
    default: return 0;
    }
}

/* The message goes to the lowest free buffers, 512 bytes to each while there are so many: into the store and the state
 * before the call, in which the dropped one's are free by then. Answers 0 where it is too long or they are too few. */
static int put_message(size_t length) {
    size_t b, last = CSENGADRUL_BUFFERS, at = 0;
    if (length > CSENGADRUL_MESSAGE_SIZE) return 0;
    for (b = 0; b < CSENGADRUL_BUFFERS && (at < length || last == CSENGADRUL_BUFFERS); b++) {
        size_t part = length - at < 512 ? length - at : 512;
        if (!is_free(state_before, b)) continue;
        memcpy(store_before + 512 * b, message + at, part);
        put_buffer(b, 0, at == 0 ? length : 0, b);
        if (at > 0) state_before[CSENGADRUL_OFFSET_CHAIN + last] = (uint8_t)b;
        last = b;
        at += part;
    }
    return at == length && last < CSENGADRUL_BUFFERS;
}

/* A send writes the message's bytes to its buffers, and no other byte of the store. */
static int sent_well(void) {
    return put_message(areas[MESSAGE].told) && memcmp(store, store_before, sizeof store) == 0 &&
           memcmp(message, message_before, sizeof message) == 0;
}

/* The lengths, the free bits and the chains, which stand side by side, are as they must be. */
static int buffers_well(void) {
    return memcmp(state + CSENGADRUL_OFFSET_LENGTH, state_before + CSENGADRUL_OFFSET_LENGTH,
                  CSENGADRUL_OFFSET_COUNT - CSENGADRUL_OFFSET_LENGTH) == 0;
}

/* A read writes the first bytes of the room, as many as the message has, and no other. */
static int read_well(size_t length) {
    if (length > areas[ROOM].bytes) return 0;
    return memcmp(room + length, room_before + length, areas[ROOM].bytes - length) == 0;
}

/* A mailbox gets its capacity and its mode, and no other byte of the state changes. */
static int set_well(numbers given) {
    if (given.number >= CSENGADRUL_MAILBOXES) return 0;
    state_before[CSENGADRUL_OFFSET_CAPACITY + given.number] = (uint8_t)given.capacity;
    state_before[CSENGADRUL_OFFSET_MODE + given.number] = (uint8_t)given.mode;
    return memcmp(state, state_before, sizeof state) == 0;
}

/* The slice, capacities and modes are as they were: the last bytes of the state. */
static int settings_stay(void) {
    return memcmp(state + CSENGADRUL_OFFSET_SLICE, state_before + CSENGADRUL_OFFSET_SLICE,
                  CSENGADRUL_STATE_SIZE - CSENGADRUL_OFFSET_SLICE) == 0;
}

int is_reason(const csengadrul_reason *r, uint32_t kind, uint32_t which, uint32_t ahead) {
    return r->kind == kind && r->which == which && r->ahead == ahead;
}

/* What the call may have changed, by its code. A refused question has zeros for its reason. */
static int kept(enum call call, numbers given, const outcome *o) {
    uint32_t code = o->answer.code;
    if (code != CSENGADRUL_DONE && code != CSENGADRUL_WAITS)
        return o->changed == 0 && (call != WHY || is_reason(&o->reason, 0, 0, 0));
    put_free(given_back(call, given));
    switch (call) {
    case SEND: return sent_well() && buffers_well() && settings_stay();
    case READ: return (o->changed & ~(1u << ROOM)) == 0 && read_well(o->answer.number);
    case LISTING: return (o->changed & ~(1u << ROWS)) == 0;
    case WHY: return o->changed == 0;
    case MAILBOX: return set_well(given);
    case FRESH:
    case FRESH_SLICE: return 1;
    default: return buffers_well() && settings_stay();
    }
}

outcome expect_of(const char *what, enum call call, numbers given, uint32_t code, uint32_t number, uint32_t running) {
    outcome o;
    memcpy(state_before, state, sizeof state);
    if (call == SEND) memcpy(store_before, store, sizeof store);
    if (call == SEND) memcpy(message_before, message, sizeof message);
    if (call == READ) memcpy(room_before, room, sizeof room);
    o = lend(call, given, areas);
    if (o.answer.code < 64) codes_seen |= 1ul << o.answer.code;
    if ((call == FRESH || call == FRESH_SLICE) && code == CSENGADRUL_DONE) memset(births, 0, sizeof births);
    if (o.answer.code != code || o.answer.number != number || o.answer.running != running)
        printf("%s: answer %lu %lu %lu, expected %lu %lu %lu\n", what, (unsigned long)o.answer.code,
               (unsigned long)o.answer.number, (unsigned long)o.answer.running, (unsigned long)code,
               (unsigned long)number, (unsigned long)running);
    if (o.escaped) printf("%s: a guard byte changed, areas %#x\n", what, o.escaped);
    count(o.answer.code == code && o.answer.number == number && o.answer.running == running && !o.escaped &&
              kept(call, given, &o),
          what);
    return o;
}

outcome expect(const char *what, enum call call, uint32_t given, uint32_t code, uint32_t number, uint32_t running) {
    numbers one;
    one.number = given;
    one.capacity = 8;
    one.mode = 0;
    return expect_of(what, call, one, code, number, running);
}

void start(uint32_t slice) {
    usual();
    expect("a fresh kernel", FRESH_SLICE, slice, CSENGADRUL_DONE, 0, 0);
}

void fresh(void) {
    start(SLICE);
}

uint32_t name(uint32_t number) {
    return number + 256 * (uint32_t)births[number];
}

void create(uint32_t class, uint32_t number, uint32_t running) {
    births[number]++;
    expect("create", CREATE, class, CSENGADRUL_DONE, name(number), running);
}

void stop(uint32_t number, uint32_t running) {
    expect("stop", STOP, name(number), CSENGADRUL_DONE, 0, running);
}

void tick(uint32_t running) {
    expect("tick", TICK, 0, CSENGADRUL_DONE, 0, running);
}

void write_message(size_t length, unsigned seed) {
    size_t i;
    for (i = 0; i < sizeof message; i++) message[i] = (uint8_t)(seed + 7 * i + i / 256);
    lay(MESSAGE, side, length, length);
}

void send(uint32_t mailbox, size_t length, uint32_t code, uint32_t running) {
    write_message(length, mailbox + (unsigned)length);
    expect("send", SEND, mailbox, code, 0, running);
}

/* Where nobody waits, a send changes nothing beside the queues of mailboxes but what stands of buffers. */
static int only_buffers_changed(void) {
    memcpy(state_before + CSENGADRUL_OFFSET_MESSAGE_NEXT, state + CSENGADRUL_OFFSET_MESSAGE_NEXT,
           CSENGADRUL_OFFSET_HAND - CSENGADRUL_OFFSET_MESSAGE_NEXT);
    return memcmp(state, state_before, sizeof state) == 0;
}

void send_dropping(uint32_t mailbox, size_t length, uint32_t buffers, uint32_t running) {
    dropped = buffers;
    send(mailbox, length, CSENGADRUL_DONE, running);
    count(only_buffers_changed(), "a drop changes no more than mailboxes and buffers");
    dropped = 0;
}

void fetch(uint32_t mailbox, size_t length, uint32_t running) {
    expect("receive", RECEIVE, mailbox, CSENGADRUL_DONE, (uint32_t)length, running);
    expect("read", READ, 0, CSENGADRUL_DONE, (uint32_t)length, running);
    write_message(length, mailbox + (unsigned)length);
    count(memcmp(room, message, length) == 0, "it is the message that was sent");
    expect("release", RELEASE, 0, CSENGADRUL_DONE, 0, running);
}

void set(uint32_t mailbox, uint32_t capacity, uint32_t mode, uint32_t code, uint32_t running) {
    numbers given;
    given.number = mailbox;
    given.capacity = capacity;
    given.mode = mode;
    expect_of("mailbox", MAILBOX, given, code, 0, running);
}

void queue_is(uint32_t mailbox, const uint8_t *buffers, size_t messages) {
    const uint8_t *next = state + CSENGADRUL_OFFSET_MESSAGE_NEXT, *before = state + CSENGADRUL_OFFSET_MESSAGE_BEFORE;
    size_t head = 32 + mailbox, at = head, i, wrong = 0;
    for (i = 0; i <= messages; i++) {
        size_t then = i < messages ? buffers[i] : head;
        wrong += next[at] != then || before[then] != at || (then < head && is_free(state, then));
        at = then;
    }
    count(!wrong, "the messages lie in these buffers, in this order");
}

int row_is(size_t process, unsigned place, unsigned which, unsigned position, unsigned class, unsigned ticks,
           unsigned full, unsigned length) {
    const csengadrul_row *r = &rows[process];
    return r->place == place && r->which == which && r->position == position && r->class_ == class &&
           r->ticks == ticks && r->full == full && r->length == length;
}

void with_byte(size_t at, uint8_t byte, uint32_t code, uint32_t running) {
    uint8_t was = state[at];
    state[at] = byte;
    expect("another byte in the state", LISTING, 0, code, 0, running);
    state[at] = was;
}
