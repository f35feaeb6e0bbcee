/* The board's calls with answers that are known beforehand: the samples of document 01, fresh starts
 * with every slice, every code, every kind of reason, names that go stale and names that return, mailboxes
 * of every capacity, those that refuse and those that drop, areas of every kind of length, and messages in
 * several buffers (pages.c). Everything is done twice, with the areas against the end of their pages and
 * against the start. What must stay as it is is compared byte for byte. */
#include "expect.h"

#include <stdio.h>
#include <string.h>

#define MOST ((size_t)-1)
#define HUGE_LENGTH ((size_t)1 << 40)
#define STACK_LIMIT 5120 /* bytes: what docs/BOARD.md tells firmware to keep for a call */
/* A call works on a copy of the state, so that a refusal changes nothing, and returns to its caller. */
#define STACK_LEAST (CSENGADRUL_STATE_SIZE + sizeof(void *))
#define ROW_BYTE 0xee

static void sample_of_the_paper(void) {
    fresh();
    expect("create 2", CREATE, 2, CSENGADRUL_DONE, 257, 1);
    expect("create 2", CREATE, 2, CSENGADRUL_DONE, 258, 1);
    tick(1);
    memcpy(message, "ABC", 3);
    lay(MESSAGE, side, 3, 3);
    expect("send 3 414243", SEND, 3, CSENGADRUL_DONE, 0, 1);
    expect("receive 3", RECEIVE, 3, CSENGADRUL_DONE, 3, 1);
    lay(ROOM, side, 2, 2);
    expect("read 2", READ, 0, CSENGADRUL_SHORT_ROOM, 3, 1);
    lay(ROOM, side, 512, 512);
    memset(room, 0xee, sizeof room);
    expect("read 512", READ, 0, CSENGADRUL_DONE, 3, 1);
    count(memcmp(room, "ABC\xee\xee", 5) == 0, "the room begins with 414243 and is as it was behind that");
    expect("end", END, 0, CSENGADRUL_DONE, 0, 2);
}

/* 1 runs for a tick while 2 is ready, is preempted by 3, and runs again. */
static void preempted_after_a_tick(void) {
    create(2, 1, 1);
    create(2, 2, 1);
    tick(1);
    create(4, 3, 3);
    expect("end", END, 0, CSENGADRUL_DONE, 0, 1);
}

/* P1 to P10 of document 01. */
static void table_of_the_paper(void) {
    fresh();
    tick(0);
    fresh();
    create(2, 1, 1);
    create(2, 2, 1);
    tick(1);
    tick(1);
    tick(2);
    fresh();
    preempted_after_a_tick();
    tick(1);
    tick(2);
    fresh();
    create(4, 1, 1);
    fresh();
    expect("create 5", CREATE, 5, CSENGADRUL_NO_CLASS, 0, 0);
    create(1, 1, 1);
    expect("receive waits", RECEIVE, 0, CSENGADRUL_WAITS, 0, 0);
    send(0, 3, CSENGADRUL_DONE, 1);
    fresh();
    create(3, 1, 1);
    create(3, 2, 1);
    expect("yield", YIELD, 0, CSENGADRUL_DONE, 0, 2);
    expect("yield", YIELD, 0, CSENGADRUL_DONE, 0, 1);
    fresh();
    expect("create 1", CREATE, 1, CSENGADRUL_DONE, 257, 1);
    expect("stop 257", STOP, 257, CSENGADRUL_DONE, 0, 0);
    expect("create 1 again", CREATE, 1, CSENGADRUL_DONE, 513, 1);
    fresh();
    create(0, 1, 1);
    expect("class 0", CLASS, 0, CSENGADRUL_DONE, 0, 1);
    expect("class 4", CLASS, 4, CSENGADRUL_DONE, 0, 1);
    fresh();
    expect("stop 0", STOP, 0, CSENGADRUL_NO_PROCESS, 0, 0);
    expect("stop 32", STOP, 32, CSENGADRUL_NO_PROCESS, 0, 0);
    expect("yield while 0 runs", YIELD, 0, CSENGADRUL_NO_CALLER, 0, 0);
    create(1, 1, 1);
    expect("wait waits", WAIT, 15, CSENGADRUL_WAITS, 0, 0);
    expect("signal wakes", SIGNAL, 15, CSENGADRUL_DONE, 0, 1);
    count(state[CSENGADRUL_OFFSET_COUNT + 30] == 0 && state[CSENGADRUL_OFFSET_COUNT + 31] == 0, "the count is still 0");
}

static void full_tables(void) {
    uint32_t i, m;
    fresh();
    for (i = 1; i < CSENGADRUL_PROCESSES; i++) create(i % CSENGADRUL_CLASSES, i, i < 4 ? i : 4);
    expect("create with no number unused", CREATE, 0, CSENGADRUL_ALL_PROCESSES, 0, 4);
    expect("create 5 with no number unused", CREATE, 5, CSENGADRUL_NO_CLASS, 0, 4);
    fresh();
    for (i = 0; i < 8; i++) send(0, i, CSENGADRUL_DONE, 0);
    send(0, 5, CSENGADRUL_MAILBOX_FULL, 0);
    for (m = 1; m < 4; m++)
        for (i = 0; i < 8; i++) send(m, 512 - i, CSENGADRUL_DONE, 0);
    send(4, 5, CSENGADRUL_NO_BUFFER, 0);
    send(0, 5, CSENGADRUL_MAILBOX_FULL, 0);
    create(0, 1, 1);
    expect("wait at 4 for a message", RECEIVE, 4, CSENGADRUL_WAITS, 0, 0);
    send(4, 5, CSENGADRUL_NO_BUFFER, 0);
    fresh();
    for (i = 0; i < CSENGADRUL_COUNT_LIMIT; i++) expect("signal", SIGNAL, 7, CSENGADRUL_DONE, 0, 0);
    expect("signal at 65,535", SIGNAL, 7, CSENGADRUL_COUNT_FULL, 0, 0);
    expect("signal elsewhere", SIGNAL, 6, CSENGADRUL_DONE, 0, 0);
    create(0, 1, 1);
    expect("wait counts down", WAIT, 7, CSENGADRUL_DONE, 0, 1);
    count(state[CSENGADRUL_OFFSET_COUNT + 14] == 0xfe && state[CSENGADRUL_OFFSET_COUNT + 15] == 0xff, "the count is 65,534");
}

static void refusals_in_order(void) {
    fresh();
    expect("5", READ, 0, CSENGADRUL_NO_CALLER, 0, 0);
    lay(STORE, side, 16383, 16383);
    expect("15 before 5", READ, 0, CSENGADRUL_OTHER_STORE, 0, 0);
    expect("15 before 3", SEND, 16, CSENGADRUL_OTHER_STORE, 0, 0);
    lay(STATE, side, CSENGADRUL_STATE_SIZE - 1, CSENGADRUL_STATE_SIZE - 1);
    expect("14 before 16", FRESH_SLICE, 0, CSENGADRUL_NOT_SOUND, 0, 0);
    expect("14 before 15", SEND, 16, CSENGADRUL_NOT_SOUND, 0, 0);
    expect("14 before 15", READ, 0, CSENGADRUL_NOT_SOUND, 0, 0);
    usual();
    expect("5 before 2", CLASS, 5, CSENGADRUL_NO_CALLER, 0, 0);
    expect("5 before 3", RECEIVE, 16, CSENGADRUL_NO_CALLER, 0, 0);
    expect("5 before 4", WAIT, 16, CSENGADRUL_NO_CALLER, 0, 0);
    expect("5", END, 0, CSENGADRUL_NO_CALLER, 0, 0);
    expect("5", RELEASE, 0, CSENGADRUL_NO_CALLER, 0, 0);
    create(1, 1, 1);
    expect("2", CLASS, 5, CSENGADRUL_NO_CLASS, 0, 1);
    expect("4", WAIT, 16, CSENGADRUL_NO_SEMAPHORE, 0, 1);
    expect("4", SIGNAL, 16, CSENGADRUL_NO_SEMAPHORE, 0, 1);
    expect("8", RELEASE, 0, CSENGADRUL_HAND_EMPTY, 0, 1);
    lay(ROOM, side, 0, 0);
    expect("8 before 9", READ, 0, CSENGADRUL_HAND_EMPTY, 0, 1);
    usual();
    send(16, 4097, CSENGADRUL_NO_MAILBOX, 1);
    send(15, 4097, CSENGADRUL_LONG_MESSAGE, 1);
    send(15, 512, CSENGADRUL_DONE, 1);
    expect("receive", RECEIVE, 15, CSENGADRUL_DONE, 512, 1);
    expect("3 before 7", RECEIVE, 16, CSENGADRUL_NO_MAILBOX, 0, 1);
    expect("7 at an empty mailbox", RECEIVE, 15, CSENGADRUL_HAND_FULL, 0, 1);
    expect("release", RELEASE, 0, CSENGADRUL_DONE, 0, 1);
    expect("release again", RELEASE, 0, CSENGADRUL_HAND_EMPTY, 0, 1);
}

/* Numbers that another width would take for good ones. */
static void large_numbers(void) {
    static const uint32_t large[] = {256, 257, 65536, 65537, 0x80000000u, 0xffffffffu};
    size_t i;
    fresh();
    create(1, 1, 1);
    for (i = 0; i < sizeof large / sizeof *large; i++) {
        expect("create", CREATE, large[i], CSENGADRUL_NO_CLASS, 0, 1);
        expect("class", CLASS, large[i], CSENGADRUL_NO_CLASS, 0, 1);
        expect("receive", RECEIVE, large[i], CSENGADRUL_NO_MAILBOX, 0, 1);
        expect("send", SEND, large[i], CSENGADRUL_NO_MAILBOX, 0, 1);
        expect("signal", SIGNAL, large[i], CSENGADRUL_NO_SEMAPHORE, 0, 1);
        expect("wait", WAIT, large[i], CSENGADRUL_NO_SEMAPHORE, 0, 1);
    }
}

/* Names that are not that of process 1, the only one. Another width would take some of them for it. */
static void other_names(void) {
    static const uint32_t other[] = {0,   1,     2,     32,    33,    255,   256,    258,         287,         288,        289,
                                     513, 65281, 65535, 65536, 65537, 65793, 131329, 0x80000101u, 0xffff0101u, 0xffffffffu};
    size_t i;
    fresh();
    create(1, 1, 1);
    for (i = 0; i < sizeof other / sizeof *other; i++) expect("stop", STOP, other[i], CSENGADRUL_NO_PROCESS, 0, 1);
    for (i = 0; i < sizeof other / sizeof *other; i++)
        if (other[i] != 0 && other[i] != 2) expect("why", WHY, other[i], CSENGADRUL_NO_PROCESS, 0, 1);
    stop(1, 0);
}

/* Process 1 of class 1 runs with a message of 3 bytes in hand, and one of 5 is queued in mailbox 2:
 * every call but create, receive and wait is done there at once. */
static void hand_full(void) {
    fresh();
    create(1, 1, 1);
    send(2, 3, CSENGADRUL_DONE, 1);
    expect("receive", RECEIVE, 2, CSENGADRUL_DONE, 3, 1);
    send(2, 5, CSENGADRUL_DONE, 1);
}

static void state_of(enum lies lies, size_t told, size_t bytes) {
    int call;
    for (call = FRESH; call <= (int)MAILBOX; call++) {
        hand_full();
        lay(STATE, lies, told, bytes);
        expect("a state of another length", call, 1, CSENGADRUL_NOT_SOUND, 0, 0);
    }
    expect("a state of another length, and no such slice", FRESH_SLICE, 0, CSENGADRUL_NOT_SOUND, 0, 0);
}

/* A state or a store, which must have one length, is lent with every other one. */
static void other_lengths(void (*lent)(enum lies, size_t, size_t), size_t right) {
    lent(NULL_POINTER, 0, 0);
    lent(OUT_OF_REACH, 0, 0);
    lent(side, 1, 1);
    lent(side, 476, 476); /* the state of version 3 */
    lent(side, 508, 508); /* the state of version 4 */
    lent(side, right - 1, right - 1);
    lent(side, right + 1, right + 1);
    lent(OUT_OF_REACH, HUGE_LENGTH, 0);
    lent(OUT_OF_REACH, HUGE_LENGTH + right, 0);
    lent(OUT_OF_REACH, MOST, 0);
    usual();
}

static void store_of(enum lies lies, size_t told, size_t bytes) {
    hand_full();
    lay(STORE, lies, told, bytes);
    expect("send with another store", SEND, 1, CSENGADRUL_OTHER_STORE, 0, 1);
    expect("read with another store", READ, 0, CSENGADRUL_OTHER_STORE, 0, 1);
}

static void message_of(enum lies lies, size_t told, size_t bytes, uint32_t code) {
    hand_full();
    write_message(bytes, 1);
    lay(MESSAGE, lies, told, bytes);
    expect("send", SEND, 9, code, 0, 1);
}

static void message_lengths(void) {
    message_of(NULL_POINTER, 0, 0, CSENGADRUL_DONE);
    message_of(OUT_OF_REACH, 0, 0, CSENGADRUL_DONE);
    message_of(side, 1, 1, CSENGADRUL_DONE);
    message_of(side, 511, 511, CSENGADRUL_DONE);
    message_of(side, 512, 512, CSENGADRUL_DONE);
    message_of(side, 513, 513, CSENGADRUL_DONE);
    message_of(side, 4095, 4095, CSENGADRUL_DONE);
    message_of(side, 4096, 4096, CSENGADRUL_DONE);
    message_of(side, 4097, 4097, CSENGADRUL_LONG_MESSAGE);
    message_of(OUT_OF_REACH, 4097, 0, CSENGADRUL_LONG_MESSAGE);
    message_of(OUT_OF_REACH, HUGE_LENGTH, 0, CSENGADRUL_LONG_MESSAGE);
    message_of(OUT_OF_REACH, HUGE_LENGTH + 3, 0, CSENGADRUL_LONG_MESSAGE);
    message_of(OUT_OF_REACH, 65536 + 3, 0, CSENGADRUL_LONG_MESSAGE);
    message_of(OUT_OF_REACH, MOST, 0, CSENGADRUL_LONG_MESSAGE);
    message_of(NULL_POINTER, MOST, 0, CSENGADRUL_LONG_MESSAGE);
    usual();
}

static void room_of(enum lies lies, size_t told, size_t bytes, uint32_t code, uint32_t length) {
    lay(ROOM, lies, told, bytes);
    expect("read", READ, 0, code, length, 1);
}

/* The message in hand has this many bytes. */
static void rooms_for(size_t length) {
    fresh();
    create(1, 1, 1);
    send(2, length, CSENGADRUL_DONE, 1);
    expect("receive", RECEIVE, 2, CSENGADRUL_DONE, (uint32_t)length, 1);
    memset(room, 0xee, sizeof room);
    if (length > 0) {
        room_of(NULL_POINTER, 0, 0, CSENGADRUL_SHORT_ROOM, (uint32_t)length);
        room_of(OUT_OF_REACH, 0, 0, CSENGADRUL_SHORT_ROOM, (uint32_t)length);
        room_of(side, length - 1, length - 1, CSENGADRUL_SHORT_ROOM, (uint32_t)length);
    } else {
        room_of(NULL_POINTER, 0, 0, CSENGADRUL_DONE, 0);
        room_of(OUT_OF_REACH, 0, 0, CSENGADRUL_DONE, 0);
        room_of(OUT_OF_REACH, MOST, 0, CSENGADRUL_DONE, 0);
    }
    room_of(side, length, length, CSENGADRUL_DONE, (uint32_t)length);
    count(memcmp(room, message, length) == 0, "the room has the message");
    memset(room, 0xdd, sizeof room);
    room_of(side, length + 1, length + 1, CSENGADRUL_DONE, (uint32_t)length);
    room_of(side, HUGE_LENGTH, length, CSENGADRUL_DONE, (uint32_t)length);
    room_of(side, MOST, length + 1, CSENGADRUL_DONE, (uint32_t)length);
    count(memcmp(room, message, length) == 0, "the huge room has the message");
    usual();
}

/* Whether the rows from this one to the table's last are as they were. */
static int rows_stay(size_t from) {
    const uint8_t *at = (const uint8_t *)(rows + from), *end = (const uint8_t *)(rows + TABLE_ROWS);
    while (at < end && *at == ROW_BYTE) at++;
    return at == end;
}

static void table_of(enum lies lies, size_t told, size_t there, uint32_t code) {
    memset(rows, ROW_BYTE, sizeof rows);
    lay(ROWS, lies, told, there * sizeof *rows);
    expect("listing", LISTING, 0, code, code == CSENGADRUL_DONE ? 0 : CSENGADRUL_PROCESSES, 1);
    count(rows_stay(code == CSENGADRUL_DONE ? CSENGADRUL_PROCESSES : 0), "rows that are no process's stay");
}

static void listing(void) {
    hand_full();
    create(1, 2, 1);
    create(1, 3, 1);
    table_of(NULL_POINTER, 0, 0, CSENGADRUL_SHORT_ROOM);
    table_of(OUT_OF_REACH, 0, 0, CSENGADRUL_SHORT_ROOM);
    table_of(side, 1, 1, CSENGADRUL_SHORT_ROOM);
    table_of(side, 31, 31, CSENGADRUL_SHORT_ROOM);
    table_of(side, HUGE_LENGTH, 32, CSENGADRUL_DONE);
    table_of(side, MOST, 32, CSENGADRUL_DONE);
    table_of(side, 32, 32, CSENGADRUL_DONE);
    table_of(side, TABLE_ROWS, TABLE_ROWS, CSENGADRUL_DONE);
    table_of(side, 33, 33, CSENGADRUL_DONE);
    count(row_is(0, CSENGADRUL_STANDING_BY, 0, 0, 0, 0, 0, 0), "the row of process 0");
    count(row_is(1, CSENGADRUL_RUNNING, 1, 0, 1, SLICE, 1, 3), "the row of the running one");
    count(row_is(2, CSENGADRUL_READY, 1, 0, 1, SLICE, 0, 0), "the row of the first that is ready");
    count(row_is(3, CSENGADRUL_READY, 1, 1, 1, SLICE, 0, 0), "the row of the second that is ready");
    count(row_is(4, CSENGADRUL_UNUSED, 0, 0, 0, 0, 0, 0), "the row of an unused one");
    expect("wait", WAIT, 9, CSENGADRUL_WAITS, 0, 2);
    expect("receive", RECEIVE, 8, CSENGADRUL_WAITS, 0, 3);
    expect("end", END, 0, CSENGADRUL_DONE, 0, 0);
    expect("listing while 0 runs", LISTING, 0, CSENGADRUL_DONE, 0, 0);
    count(row_is(0, CSENGADRUL_RUNNING, 0, 0, 0, 0, 0, 0), "the row of process 0 while it runs");
    count(row_is(1, CSENGADRUL_AT_SEMAPHORE, 9, 0, 1, SLICE, 1, 3), "the row of a waiter with a full hand");
    count(row_is(2, CSENGADRUL_AT_MAILBOX, 8, 0, 1, SLICE, 0, 0), "the row of a waiter at a mailbox");
    usual();
}

/* Asks about a number by its name and counts whether this is the reason. */
static void why(uint32_t number, uint32_t running, uint32_t kind, uint32_t which, uint32_t ahead) {
    outcome o = expect("why", WHY, name(number), CSENGADRUL_DONE, 0, running);
    if (!is_reason(&o.reason, kind, which, ahead))
        printf("why %lu: reason %lu %lu %lu, expected %lu %lu %lu\n", (unsigned long)name(number),
               (unsigned long)o.reason.kind, (unsigned long)o.reason.which, (unsigned long)o.reason.ahead,
               (unsigned long)kind, (unsigned long)which, (unsigned long)ahead);
    count(is_reason(&o.reason, kind, which, ahead), "the reason");
}

/* 1, 2 and 3 wait at mailbox 15, and 4, 5 and 6 at semaphore 0, while 0 runs. */
static void six_wait(void) {
    uint32_t p;
    fresh();
    for (p = 1; p <= 6; p++) {
        create(3, p, p);
        if (p <= 3) expect("receive", RECEIVE, 15, CSENGADRUL_WAITS, 0, 0);
        else expect("wait", WAIT, 0, CSENGADRUL_WAITS, 0, 0);
    }
}

static void reasons_of_waiters(void) {
    uint32_t p;
    fresh();
    why(0, 0, CSENGADRUL_WHY_RUNNING, 0, 0);
    for (p = 1; p < CSENGADRUL_PROCESSES; p++) why(p, 0, CSENGADRUL_WHY_UNUSED, 0, 0);
    six_wait();
    why(0, 0, CSENGADRUL_WHY_RUNNING, 0, 0);
    for (p = 0; p < 3; p++) {
        why(1 + p, 0, CSENGADRUL_WHY_MAILBOX, 15, p);
        why(4 + p, 0, CSENGADRUL_WHY_SEMAPHORE, 0, p);
    }
    why(7, 0, CSENGADRUL_WHY_UNUSED, 0, 0);
    stop(2, 0);
    why(2, 0, CSENGADRUL_WHY_UNUSED, 0, 0);
    why(3, 0, CSENGADRUL_WHY_MAILBOX, 15, 1);
    expect("signal", SIGNAL, 0, CSENGADRUL_DONE, 0, 4);
    why(0, 4, CSENGADRUL_WHY_BEHIND, 4, 0);
    why(4, 4, CSENGADRUL_WHY_RUNNING, 0, 0);
    why(5, 4, CSENGADRUL_WHY_SEMAPHORE, 0, 0);
    why(6, 4, CSENGADRUL_WHY_SEMAPHORE, 0, 1);
}

/* 1 of class 2 runs; 2 and 3 are ready behind it, 4, 5 and 6 in class 0. Then 7 of class 4 runs. */
static void reasons_of_the_ready(void) {
    uint32_t p;
    fresh();
    for (p = 1; p <= 6; p++) create(p <= 3 ? 2 : 0, p, 1);
    why(0, 1, CSENGADRUL_WHY_BEHIND, 1, 0);
    why(1, 1, CSENGADRUL_WHY_RUNNING, 0, 0);
    why(2, 1, CSENGADRUL_WHY_READY, 0, 1);
    why(3, 1, CSENGADRUL_WHY_READY, 0, 2);
    for (p = 4; p <= 6; p++) why(p, 1, CSENGADRUL_WHY_BEHIND, 1, 0);
    create(4, 7, 7);
    why(7, 7, CSENGADRUL_WHY_RUNNING, 0, 0);
    for (p = 0; p <= 6; p++) why(p, 7, CSENGADRUL_WHY_BEHIND, 7, 0);
    why(8, 7, CSENGADRUL_WHY_UNUSED, 0, 0);
    why(31, 7, CSENGADRUL_WHY_UNUSED, 0, 0);
}

/* As many as there can be, of one class: 31 is ready behind all others, and then waits behind them. */
static void reasons_in_a_crowd(void) {
    uint32_t p;
    fresh();
    for (p = 1; p < CSENGADRUL_PROCESSES; p++) create(0, p, 1);
    for (p = 2; p < CSENGADRUL_PROCESSES; p++) why(p, 1, CSENGADRUL_WHY_READY, 0, p - 1);
    for (p = 1; p < CSENGADRUL_PROCESSES; p++)
        expect("wait", WAIT, 15, CSENGADRUL_WAITS, 0, p < CSENGADRUL_PROCESSES - 1 ? p + 1 : 0);
    for (p = 1; p < CSENGADRUL_PROCESSES; p++) why(p, 0, CSENGADRUL_WHY_SEMAPHORE, 15, p - 1);
}

static void refused_questions(void) {
    fresh();
    expect("1 while 0 runs", WHY, 32, CSENGADRUL_NO_PROCESS, 0, 0);
    expect("1 for a birth that never was", WHY, 257, CSENGADRUL_NO_PROCESS, 0, 0);
    create(1, 1, 1);
    expect("1 while 1 runs", WHY, 32, CSENGADRUL_NO_PROCESS, 0, 1);
    state[CSENGADRUL_OFFSET_RUNNING] = 2;
    expect("14 before 1", WHY, 32, CSENGADRUL_NOT_SOUND, 0, 0);
    expect("14", WHY, 257, CSENGADRUL_NOT_SOUND, 0, 0);
    expect("14 of process 0", WHY, 0, CSENGADRUL_NOT_SOUND, 0, 0);
    state[CSENGADRUL_OFFSET_RUNNING] = 1;
    lay(STATE, side, CSENGADRUL_STATE_SIZE - 1, CSENGADRUL_STATE_SIZE - 1);
    expect("14 before 1, by the length", WHY, 32, CSENGADRUL_NOT_SOUND, 0, 0);
    lay(STATE, NULL_POINTER, 0, 0);
    expect("14 before 1, of no area", WHY, 32, CSENGADRUL_NOT_SOUND, 0, 0);
    usual();
    why(1, 1, CSENGADRUL_WHY_RUNNING, 0, 0);
}

/* The crew's stale screen: process 2 was stopped and its number is in use again. */
static void names_go_stale(void) {
    fresh();
    why(2, 0, CSENGADRUL_WHY_UNUSED, 0, 0);
    expect("stop of one that never was", STOP, 2, CSENGADRUL_NO_PROCESS, 0, 0);
    expect("create", CREATE, 1, CSENGADRUL_DONE, 257, 1);
    expect("create", CREATE, 1, CSENGADRUL_DONE, 258, 1);
    expect("stop", STOP, 258, CSENGADRUL_DONE, 0, 1);
    expect("create", CREATE, 1, CSENGADRUL_DONE, 514, 1);
    expect("stop from a stale screen", STOP, 258, CSENGADRUL_NO_PROCESS, 0, 1);
    expect("why from a stale screen", WHY, 258, CSENGADRUL_NO_PROCESS, 0, 1);
    expect("stop of a number alone", STOP, 2, CSENGADRUL_NO_PROCESS, 0, 1);
    expect("why of a number alone", WHY, 2, CSENGADRUL_NO_PROCESS, 0, 1);
    births[1] = 1; /* so often were they created above */
    births[2] = 2;
    why(2, 1, CSENGADRUL_WHY_READY, 0, 1);
    stop(2, 1);
    why(2, 1, CSENGADRUL_WHY_UNUSED, 0, 0);
    expect("stop of an unused number by the name that it had last", STOP, 514, CSENGADRUL_NO_PROCESS, 0, 1);
    expect("why of an unused number by an earlier name", WHY, 258, CSENGADRUL_NO_PROCESS, 0, 1);
    expect("why of an unused number alone", WHY, 2, CSENGADRUL_NO_PROCESS, 0, 1);
    expect("end", END, 0, CSENGADRUL_DONE, 0, 0);
    create(1, 1, 1);
    count(name(1) == 513, "who ended was born too");
    why(0, 1, CSENGADRUL_WHY_BEHIND, 1, 0);
    expect("why of 0 with a birth count", WHY, 256, CSENGADRUL_NO_PROCESS, 0, 1);
    count(memcmp(state + CSENGADRUL_OFFSET_BIRTHS, births, sizeof births) == 0, "the state has the birth counts");
}

/* Of all names with this number the one that it has is taken, and no other. */
static void only_its_name(uint32_t number, uint32_t running, uint32_t kind) {
    uint32_t counted;
    for (counted = 0; counted < 256; counted++)
        if (counted != births[number])
            expect("another birth count", WHY, number + 256 * counted, CSENGADRUL_NO_PROCESS, 0, running);
    why(number, running, kind, 0, 0);
}

/* Process 2 is born and stopped until its names return. The name of its first birth is that of birth 257. */
static void names_return(void) {
    uint32_t birth, before;
    fresh();
    create(3, 1, 1);
    for (birth = 1; birth <= 260; birth++) {
        before = name(2);
        create(4, 2, 2);
        why(2, 2, CSENGADRUL_WHY_RUNNING, 0, 0);
        expect("stop by the name before", STOP, before, CSENGADRUL_NO_PROCESS, 0, 2);
        expect("why by the name before", WHY, before, CSENGADRUL_NO_PROCESS, 0, 2);
        if (birth % 64 == 1 || birth % 128 > 125) only_its_name(2, 2, CSENGADRUL_WHY_RUNNING);
        if (birth % 2) stop(2, 1);
        else expect("end", END, 0, CSENGADRUL_DONE, 0, 1);
        expect("stop again", STOP, name(2), CSENGADRUL_NO_PROCESS, 0, 1);
        why(2, 1, CSENGADRUL_WHY_UNUSED, 0, 0);
        if (birth % 128 > 125) only_its_name(2, 1, CSENGADRUL_WHY_UNUSED);
        count(state[CSENGADRUL_OFFSET_BIRTHS + 2] == birth % 256, "the birth count");
        if (birth == 255) count(name(2) == 65282, "the last name before they return");
        if (birth == 256) count(name(2) == 2, "the number alone is the name of birth 256");
        if (birth == 257) count(name(2) == 258, "the first name has returned");
    }
    why(1, 1, CSENGADRUL_WHY_RUNNING, 0, 0);
}

/* All numbers are born, stopped and born again: each has a birth count of its own. */
static void names_of_all(void) {
    uint32_t p;
    fresh();
    for (p = 1; p < CSENGADRUL_PROCESSES; p++) create(0, p, 1);
    for (p = 2; p < CSENGADRUL_PROCESSES; p += 3) stop(p, 1);
    for (p = 2; p < CSENGADRUL_PROCESSES; p += 3) create(0, p, 1);
    stop(5, 1);
    create(0, 5, 1);
    count(name(4) == 260 && name(5) == 773 && name(8) == 520, "the names of 4, 5 and 8");
    for (p = 1; p < CSENGADRUL_PROCESSES; p++) {
        expect("a number alone", STOP, p, CSENGADRUL_NO_PROCESS, 0, 1);
        expect("its next name", STOP, name(p) + 256, CSENGADRUL_NO_PROCESS, 0, 1);
        expect("the name before", STOP, name(p) - 256, CSENGADRUL_NO_PROCESS, 0, 1);
    }
    for (p = CSENGADRUL_PROCESSES - 1; p > 1; p--) stop(p, 1);
    count(memcmp(state + CSENGADRUL_OFFSET_BIRTHS, births, sizeof births) == 0, "the state has the birth counts");
}

/* A state may have any birth counts but for process 0, whose name is 0. */
static void any_births(void) {
    uint32_t p;
    fresh();
    for (p = 1; p < CSENGADRUL_PROCESSES; p++) state[CSENGADRUL_OFFSET_BIRTHS + p] = births[p] = (uint8_t)(8 * p + 7);
    for (p = 0; p < CSENGADRUL_PROCESSES; p++)
        why(p, 0, p ? CSENGADRUL_WHY_UNUSED : CSENGADRUL_WHY_RUNNING, 0, 0);
    for (p = 1; p < CSENGADRUL_PROCESSES; p++) create(0, p, 1);
    for (p = CSENGADRUL_PROCESSES - 1; p > 0; p--) stop(p, p > 1);
    for (p = 1; p < 256; p++) {
        state[CSENGADRUL_OFFSET_BIRTHS] = (uint8_t)p;
        expect("a birth count of 0", TICK, 0, CSENGADRUL_NOT_SOUND, 0, 0);
        expect("0 by that name", WHY, 256 * p, CSENGADRUL_NOT_SOUND, 0, 0);
    }
}

/* Each of two processes of one class runs for a slice. */
static void take_turns(uint32_t slice) {
    uint32_t t;
    create(2, 1, 1);
    create(2, 2, 1);
    for (t = 1; t <= 2 * slice; t++) tick(t >= slice && t < 2 * slice ? 2 : 1);
}

static void slices_at_work(void) {
    static const uint32_t slices[] = {1, 2, SLICE, 4, 5, 6, 127, 128, 254, 255};
    size_t i;
    usual();
    expect("a fresh kernel where no slice is named", FRESH, 0, CSENGADRUL_DONE, 0, 0);
    take_turns(5);
    for (i = 0; i < sizeof slices / sizeof *slices; i++) {
        start(slices[i]);
        take_turns(slices[i]);
    }
    start(5);
    preempted_after_a_tick();
    tick(1);
    tick(1);
    tick(1);
    tick(2);
    start(255);
    create(1, 1, 1);
    create(0, 2, 1);
    expect("wait", WAIT, 9, CSENGADRUL_WAITS, 0, 2);
    expect("listing", LISTING, 0, CSENGADRUL_DONE, 0, 2);
    count(row_is(1, CSENGADRUL_AT_SEMAPHORE, 9, 0, 1, 255, 0, 0), "a waiter has a full slice");
    count(row_is(2, CSENGADRUL_RUNNING, 0, 0, 0, 255, 0, 0), "and so has who begins to run");
}

/* Numbers at the edges of what may be set, and some that another width would take for good ones. */
static const uint32_t edges[] = {0, 1, 2, 15, 16, 32, 33, 255, 256, 257, 65537, 0x80000001u, 0xffffffffu};
#define EDGES (sizeof edges / sizeof *edges)

/* Every mailbox with every edge as capacity and as mode. Good numbers get this code. */
static void set_to_edges(uint32_t good, uint32_t running) {
    size_t m, c, d;
    for (m = 0; m < EDGES; m++)
        for (c = 0; c < EDGES; c++)
            for (d = 0; d < EDGES; d++) {
                int is_size = edges[c] >= 1 && edges[c] <= 32 && edges[d] <= 1;
                uint32_t code = is_size ? good : CSENGADRUL_NO_SIZE;
                set(edges[m], edges[c], edges[d], edges[m] <= 15 ? code : CSENGADRUL_NO_MAILBOX, running);
            }
}

/* While 0 runs and nothing is in any mailbox; and while 4 runs, 0 has a message and 2 two, one process waits at 1 and
 * two wait at 15, so that every mailbox among the edges is busy. */
static void edges_of_sizes(void) {
    uint32_t p;
    fresh();
    set_to_edges(CSENGADRUL_DONE, 0);
    fresh();
    for (p = 1; p <= 3; p++) {
        create(2, p, p);
        expect("receive", RECEIVE, p == 3 ? 1 : 15, CSENGADRUL_WAITS, 0, 0);
    }
    create(1, 4, 4);
    send(0, 3, CSENGADRUL_DONE, 4);
    send(2, 4, CSENGADRUL_DONE, 4);
    send(2, 5, CSENGADRUL_DONE, 4);
    set_to_edges(CSENGADRUL_MAILBOX_BUSY, 4);
}

/* Every size and every habit, and where docs/IMAGE.md has them. */
static void every_size(void) {
    uint32_t m, c, there = 0;
    fresh();
    for (m = 0; m < 16; m++)
        for (c = 1; c <= 32; c++) {
            set(m, c, 1, CSENGADRUL_DONE, 0);
            set(m, c, 0, CSENGADRUL_DONE, 0);
        }
    create(4, 1, 1);
    create(4, 2, 1);
    for (m = 0; m < 16; m++) set(m, 2 * m + 1, m % 2, CSENGADRUL_DONE, 1);
    for (m = 0; m < 16; m++) there += state[508 + m] == 2 * m + 1 && state[524 + m] == m % 2;
    count(there == 16, "the state has capacities at 508 and modes at 524");
    tick(1);
    set(0, 32, 0, CSENGADRUL_DONE, 1);
    tick(1);
    set(0, 1, 1, CSENGADRUL_DONE, 1);
    tick(2);
}

/* 18 is for messages that are queued there and for processes that wait there, and for nothing else. */
static void busy_mailbox(uint32_t m) {
    uint32_t other;
    fresh();
    create(2, 1, 1);
    send(m, 3, CSENGADRUL_DONE, 1);
    for (other = 0; other < 16; other++) set(other, 9, 1, other == m ? CSENGADRUL_MAILBOX_BUSY : CSENGADRUL_DONE, 1);
    set(m, 8, 0, CSENGADRUL_MAILBOX_BUSY, 1);
    expect("receive", RECEIVE, m, CSENGADRUL_DONE, 3, 1);
    set(m, 1, 1, CSENGADRUL_DONE, 1);
    expect("release", RELEASE, 0, CSENGADRUL_DONE, 0, 1);
    expect("receive", RECEIVE, m, CSENGADRUL_WAITS, 0, 0);
    for (other = 0; other < 16; other++) set(other, 7, 0, other == m ? CSENGADRUL_MAILBOX_BUSY : CSENGADRUL_DONE, 0);
    set(m, 1, 1, CSENGADRUL_MAILBOX_BUSY, 0);
    create(1, 2, 2);
    expect("receive", RECEIVE, m, CSENGADRUL_WAITS, 0, 0);
    send(m, 4, CSENGADRUL_DONE, 1);
    set(m, 1, 1, CSENGADRUL_MAILBOX_BUSY, 1);
    stop(2, 1);
    set(m, 2, 0, CSENGADRUL_DONE, 1);
    expect("wait", WAIT, m, CSENGADRUL_WAITS, 0, 0);
    set(m, 32, 1, CSENGADRUL_DONE, 0);
    expect("signal", SIGNAL, m, CSENGADRUL_DONE, 0, 1);
    expect("release", RELEASE, 0, CSENGADRUL_DONE, 0, 1);
}

static void refusals_of_sizes_in_order(void) {
    fresh();
    set(16, 0, 2, CSENGADRUL_NO_MAILBOX, 0);
    set(16, 8, 0, CSENGADRUL_NO_MAILBOX, 0);
    send(15, 3, CSENGADRUL_DONE, 0);
    set(15, 0, 0, CSENGADRUL_NO_SIZE, 0);
    set(15, 33, 0, CSENGADRUL_NO_SIZE, 0);
    set(15, 8, 2, CSENGADRUL_NO_SIZE, 0);
    set(15, 32, 1, CSENGADRUL_MAILBOX_BUSY, 0);
    set(15, 8, 0, CSENGADRUL_MAILBOX_BUSY, 0);
    lay(STATE, side, CSENGADRUL_STATE_SIZE - 1, CSENGADRUL_STATE_SIZE - 1);
    set(16, 0, 2, CSENGADRUL_NOT_SOUND, 0);
    set(15, 8, 0, CSENGADRUL_NOT_SOUND, 0);
    usual();
    state[CSENGADRUL_OFFSET_MODE + 3] = 2;
    set(16, 0, 2, CSENGADRUL_NOT_SOUND, 0);
    set(3, 8, 0, CSENGADRUL_NOT_SOUND, 0);
}

/* As many messages as it takes, each whole and in order; the next is refused and none is lost. */
static void refusing_mailbox(uint32_t capacity) {
    uint32_t i;
    fresh();
    create(2, 1, 1);
    set(9, capacity, 0, CSENGADRUL_DONE, 1);
    for (i = 0; i < capacity; i++) send(9, 10 + i, CSENGADRUL_DONE, 1);
    send(9, 5, CSENGADRUL_MAILBOX_FULL, 1);
    send(9, 4097, CSENGADRUL_LONG_MESSAGE, 1);
    send(8, 5, capacity < 32 ? CSENGADRUL_DONE : CSENGADRUL_NO_BUFFER, 1);
    fetch(9, 10, 1);
    send(9, 10 + capacity, CSENGADRUL_DONE, 1);
    send(9, 5, CSENGADRUL_MAILBOX_FULL, 1);
    for (i = 1; i <= capacity; i++) fetch(9, 10 + i, 1);
    expect("nothing is left", RECEIVE, 9, CSENGADRUL_WAITS, 0, 0);
}

/* No send is refused, and the newest are there in order, as many as it takes. The buffer of the dropped one is the
 * lowest that is free, and takes the new one. */
static void dropping_mailbox(uint32_t capacity) {
    uint32_t i, sends = 2 * capacity + 3;
    fresh();
    create(2, 1, 1);
    set(9, capacity, 1, CSENGADRUL_DONE, 1);
    for (i = 0; i < capacity; i++) send(9, 10 + i, CSENGADRUL_DONE, 1);
    for (; i < sends; i++) send_dropping(9, 10 + i, 1u << i % capacity, 1);
    for (i = sends - capacity; i < sends; i++) fetch(9, 10 + i, 1);
    expect("nothing else is left", RECEIVE, 9, CSENGADRUL_WAITS, 0, 0);
}

/* The lowest free buffer takes the message. Below the dropped one 0 is free, then 1, then 2; at last it is the lowest. */
static void lowest_after_a_drop(void) {
    static const uint8_t at_first[] = {1, 2, 3}, in_0[] = {2, 3, 0}, in_1[] = {3, 0, 1}, in_2[] = {0, 1, 2};
    static const uint8_t in_0_again[] = {1, 2, 0};
    fresh();
    create(2, 1, 1);
    create(2, 2, 1);
    tick(1);
    set(5, 3, 1, CSENGADRUL_DONE, 1);
    send(4, 8, CSENGADRUL_DONE, 1);
    send(5, 11, CSENGADRUL_DONE, 1);
    send(5, 12, CSENGADRUL_DONE, 1);
    send(5, 13, CSENGADRUL_DONE, 1);
    fetch(4, 8, 1);
    QUEUE_IS(5, at_first);
    send_dropping(5, 14, 1u << 1, 1);
    QUEUE_IS(5, in_0);
    send_dropping(5, 15, 1u << 2, 1);
    QUEUE_IS(5, in_1);
    send_dropping(5, 16, 1u << 3, 1);
    QUEUE_IS(5, in_2);
    send_dropping(5, 17, 1u << 0, 1);
    QUEUE_IS(5, in_0_again);
    fetch(5, 15, 1);
    fetch(5, 16, 1);
    fetch(5, 17, 1);
}

/* Mailbox 5 takes 4 and drops, and has them in buffers 0 to 3; 6 takes 4 and drops, and has 3; 2 takes 2 and refuses,
 * and has them; 1 takes 32, refuses, and has the 23 that are left. 4 takes 1 and drops, and has none. */
static void all_buffers_in_use(void) {
    uint32_t i;
    fresh();
    create(2, 1, 1);
    set(5, 4, 1, CSENGADRUL_DONE, 1);
    set(6, 4, 1, CSENGADRUL_DONE, 1);
    set(2, 2, 0, CSENGADRUL_DONE, 1);
    set(1, 32, 0, CSENGADRUL_DONE, 1);
    set(4, 1, 1, CSENGADRUL_DONE, 1);
    for (i = 0; i < 4; i++) send(5, 20 + i, CSENGADRUL_DONE, 1);
    for (i = 0; i < 3; i++) send(6, 30 + i, CSENGADRUL_DONE, 1);
    for (i = 0; i < 2; i++) send(2, 40 + i, CSENGADRUL_DONE, 1);
    for (i = 0; i < 23; i++) send(1, 50 + i, CSENGADRUL_DONE, 1);
}

/* Only a mailbox that drops and is full makes room, by one message of its own for each send. */
static void drops_with_all_in_use(void) {
    static const uint8_t of_5[] = {0, 1, 2, 3}, then_of_5[] = {1, 2, 3, 0}, last_of_5[] = {2, 3, 0, 1};
    static const uint8_t of_6[] = {4, 5, 6}, of_2[] = {7, 8};
    uint32_t i;
    all_buffers_in_use();
    send(6, 5, CSENGADRUL_NO_BUFFER, 1);
    send(4, 5, CSENGADRUL_NO_BUFFER, 1);
    send(1, 5, CSENGADRUL_NO_BUFFER, 1);
    send(7, 5, CSENGADRUL_NO_BUFFER, 1);
    send(2, 5, CSENGADRUL_MAILBOX_FULL, 1);
    send(5, 4097, CSENGADRUL_LONG_MESSAGE, 1);
    lay(STORE, side, 16383, 16383);
    expect("15 of a mailbox that would drop", SEND, 5, CSENGADRUL_OTHER_STORE, 0, 1);
    usual();
    QUEUE_IS(5, of_5);
    send_dropping(5, 24, 1u << 0, 1);
    QUEUE_IS(5, then_of_5);
    for (i = 1; i < 6; i++) send_dropping(5, 24 + i, 1u << i % 4, 1);
    QUEUE_IS(5, last_of_5);
    QUEUE_IS(6, of_6);
    QUEUE_IS(2, of_2);
    expect("wait at 4 for a message", RECEIVE, 4, CSENGADRUL_WAITS, 0, 0);
    send(4, 5, CSENGADRUL_NO_BUFFER, 0);
    send_dropping(5, 30, 1u << 2, 0);
    why(1, 0, CSENGADRUL_WHY_MAILBOX, 4, 0);
    create(1, 2, 2);
    for (i = 27; i <= 30; i++) fetch(5, i, 2);
    for (i = 30; i <= 32; i++) fetch(6, i, 2);
    for (i = 50; i <= 72; i++) fetch(1, i, 2);
    fetch(2, 40, 2);
    fetch(2, 41, 2);
}

/* A mailbox that takes one message and drops always has the newest. What is in hand is no longer in the mailbox, and
 * stays as it is. */
static void newest_alone(void) {
    static const size_t lengths[] = {512, 0, 1, 511, 0, 3};
    size_t i;
    fresh();
    set(0, 1, 1, CSENGADRUL_DONE, 0);
    create(2, 1, 1);
    send(0, 7, CSENGADRUL_DONE, 1);
    expect("receive", RECEIVE, 0, CSENGADRUL_DONE, 7, 1);
    send(0, 100, CSENGADRUL_DONE, 1);
    for (i = 0; i < sizeof lengths / sizeof *lengths; i++) send_dropping(0, lengths[i], 1u << 1, 1);
    expect("read", READ, 0, CSENGADRUL_DONE, 7, 1);
    write_message(7, 7);
    count(memcmp(room, message, 7) == 0, "the message in hand is the one that was received");
    expect("release", RELEASE, 0, CSENGADRUL_DONE, 0, 1);
    fetch(0, 3, 1);
    for (i = 0; i < sizeof lengths / sizeof *lengths; i++) {
        send(0, 9, CSENGADRUL_DONE, 1);
        send_dropping(0, lengths[i], 1u << 0, 1);
        fetch(0, lengths[i], 1);
    }
}

/* Where processes wait, messages go into their hands and none is dropped. */
static void waiters_at_a_dropping_mailbox(void) {
    fresh();
    set(11, 1, 1, CSENGADRUL_DONE, 0);
    create(1, 1, 1);
    expect("receive", RECEIVE, 11, CSENGADRUL_WAITS, 0, 0);
    create(2, 2, 2);
    expect("receive", RECEIVE, 11, CSENGADRUL_WAITS, 0, 0);
    send(11, 3, CSENGADRUL_DONE, 1);
    send(11, 4, CSENGADRUL_DONE, 2);
    send(11, 5, CSENGADRUL_DONE, 2);
    send_dropping(11, 6, 1u << 2, 2);
    expect("read", READ, 0, CSENGADRUL_DONE, 4, 2);
    expect("end", END, 0, CSENGADRUL_DONE, 0, 1);
    expect("read", READ, 0, CSENGADRUL_DONE, 3, 1);
    expect("release", RELEASE, 0, CSENGADRUL_DONE, 0, 1);
    fetch(11, 6, 1);
}

/* Whether every mailbox takes 8 and refuses. */
static int as_at_the_start(void) {
    size_t m, there = 0;
    for (m = 0; m < 16; m++) there += state[508 + m] == 8 && state[524 + m] == 0;
    return there == 16;
}

/* Sizes and slices do not meet, and a fresh start of either kind sets both anew. */
static void sizes_and_fresh_starts(void) {
    uint32_t m;
    start(7);
    count(as_at_the_start(), "every mailbox takes 8 and refuses");
    for (m = 0; m < 16; m++) set(m, m + 1, 1, CSENGADRUL_DONE, 0);
    take_turns(7);
    expect("fresh", FRESH, 0, CSENGADRUL_DONE, 0, 0);
    count(as_at_the_start(), "every mailbox takes 8 and refuses again");
    for (m = 0; m < 16; m++) set(m, 32 - m, 1, CSENGADRUL_DONE, 0);
    take_turns(5);
    expect("16 leaves the sizes", FRESH_SLICE, 0, CSENGADRUL_NO_SLICE, 0, 0);
    start(255);
    count(as_at_the_start(), "every mailbox takes 8 and refuses, with another slice");
    for (m = 0; m < 8; m++) send(3, m, CSENGADRUL_DONE, 0);
    send(3, 8, CSENGADRUL_MAILBOX_FULL, 0);
}

/* 1 to 32 alone are a capacity, 0 and 1 alone a mode. */
static void damaged_sizes(void) {
    uint32_t m, byte;
    fresh();
    for (m = 0; m < 16; m++)
        for (byte = 0; byte < 256; byte++) {
            with_byte(508 + m, (uint8_t)byte, byte >= 1 && byte <= 32 ? CSENGADRUL_DONE : CSENGADRUL_NOT_SOUND, 0);
            with_byte(524 + m, (uint8_t)byte, byte <= 1 ? CSENGADRUL_DONE : CSENGADRUL_NOT_SOUND, 0);
        }
}

/* A mailbox has no more messages than it takes itself, whether it refuses or drops and whatever the others take. */
static void damaged_fillings(void) {
    static const uint32_t fillings[] = {1, 2, 8, 9, 20, 32};
    uint32_t m, i, f, c;
    for (m = 0; m < 16; m++)
        for (f = 0; f < sizeof fillings / sizeof *fillings; f++) {
            fresh();
            set(m, fillings[f], f % 2, CSENGADRUL_DONE, 0);
            set((m + 1) % 16, 1, 1, CSENGADRUL_DONE, 0);
            set((m + 15) % 16, 32, 0, CSENGADRUL_DONE, 0);
            for (i = 0; i < fillings[f]; i++) send(m, i, CSENGADRUL_DONE, 0);
            for (c = 1; c <= 32; c++)
                with_byte(508 + m, (uint8_t)c, c >= fillings[f] ? CSENGADRUL_DONE : CSENGADRUL_NOT_SOUND, 0);
            with_byte(524 + m, (uint8_t)!(f % 2), CSENGADRUL_DONE, 0);
        }
}

/* Whatever the area holds, a fresh start writes the same image but for the slice. */
static void fresh_images(void) {
    uint8_t image[CSENGADRUL_STATE_SIZE];
    uint32_t slice;
    usual();
    memset(state, 0xa5, sizeof state);
    expect("fresh over anything", FRESH, 0, CSENGADRUL_DONE, 0, 0);
    memcpy(image, state, sizeof image);
    count(image[CSENGADRUL_OFFSET_SLICE] == 5, "the slice is 5 where none is named");
    for (slice = 1; slice <= 255; slice++) {
        memset(state, (int)slice, sizeof state);
        expect("fresh over anything, with a slice", FRESH_SLICE, slice, CSENGADRUL_DONE, 0, 0);
        count(state[CSENGADRUL_OFFSET_SLICE] == slice, "the slice is the one named");
        image[CSENGADRUL_OFFSET_SLICE] = (uint8_t)slice;
        count(memcmp(state, image, sizeof image) == 0, "every other byte is the same");
    }
}

static void refused_slices(void) {
    static const uint32_t refused[] = {0,      256,   257,   259,         511,         65535,
                                       65536, 65537, 65539, 0x80000000u, 0x80000003u, 0xffffffffu};
    size_t i;
    for (i = 0; i < sizeof refused / sizeof *refused; i++) {
        hand_full();
        expect("16 while 1 runs", FRESH_SLICE, refused[i], CSENGADRUL_NO_SLICE, 0, 0);
        tick(1);
        tick(1);
        state[CSENGADRUL_OFFSET_RUNNING] = 2;
        expect("16 of a damaged state", FRESH_SLICE, refused[i], CSENGADRUL_NO_SLICE, 0, 0);
        memset(state, 0xff, sizeof state);
        expect("16 of any bytes", FRESH_SLICE, refused[i], CSENGADRUL_NO_SLICE, 0, 0);
        expect("they are no state", TICK, 0, CSENGADRUL_NOT_SOUND, 0, 0);
        lay(STATE, side, CSENGADRUL_STATE_SIZE + 1, CSENGADRUL_STATE_SIZE + 1);
        expect("14 before 16", FRESH_SLICE, refused[i], CSENGADRUL_NOT_SOUND, 0, 0);
        lay(STATE, NULL_POINTER, 0, 0);
        expect("14 before 16, of no area", FRESH_SLICE, refused[i], CSENGADRUL_NOT_SOUND, 0, 0);
    }
    fresh();
}

static void with_slice(uint8_t slice, uint32_t code, uint32_t running) {
    with_byte(CSENGADRUL_OFFSET_SLICE, slice, code, running);
}

/* Nobody has more ticks left than the slice, and who waits has all of them. */
static void damaged_slices(void) {
    fresh();
    with_slice(0, CSENGADRUL_NOT_SOUND, 0);
    with_slice(1, CSENGADRUL_DONE, 0);
    with_slice(255, CSENGADRUL_DONE, 0);
    create(1, 1, 1);
    with_slice(0, CSENGADRUL_NOT_SOUND, 0);
    with_slice(SLICE - 1, CSENGADRUL_NOT_SOUND, 0);
    with_slice(SLICE, CSENGADRUL_DONE, 1);
    with_slice(SLICE + 1, CSENGADRUL_DONE, 1);
    with_slice(255, CSENGADRUL_DONE, 1);
    tick(1);
    with_slice(SLICE - 1, CSENGADRUL_DONE, 1);
    with_slice(SLICE - 2, CSENGADRUL_NOT_SOUND, 0);
    create(0, 2, 1);
    with_slice(SLICE - 1, CSENGADRUL_NOT_SOUND, 0);
    expect("wait", WAIT, 9, CSENGADRUL_WAITS, 0, 2);
    with_slice(0, CSENGADRUL_NOT_SOUND, 0);
    with_slice(SLICE - 1, CSENGADRUL_NOT_SOUND, 0);
    with_slice(SLICE, CSENGADRUL_DONE, 2);
    with_slice(SLICE + 1, CSENGADRUL_NOT_SOUND, 0);
    with_slice(255, CSENGADRUL_NOT_SOUND, 0);
}

/* In a fresh image the counts may be anything, those of births too but for 0's, the slice anything but 0,
 * a capacity also 9 and a mode also 1, and no other byte anything but what it is. */
static void damaged_fresh_image(void) {
    static const uint8_t flips[] = {1, 0x80, 0xff};
    size_t i, j;
    fresh();
    for (i = 0; i < CSENGADRUL_STATE_SIZE; i++)
        for (j = 0; j < sizeof flips; j++) {
            state[i] ^= flips[j];
            if (i < CSENGADRUL_OFFSET_COUNT || i == CSENGADRUL_OFFSET_BIRTHS || (i > CSENGADRUL_OFFSET_SLICE && j > 0))
                expect("a damaged byte", TICK, 0, CSENGADRUL_NOT_SOUND, 0, 0);
            else expect("another count or setting", TICK, 0, CSENGADRUL_DONE, 0, 0);
            state[i] ^= flips[j];
        }
}

static void damaged_for_each_call(void) {
    int call;
    for (call = CREATE; call <= (int)MAILBOX; call++) {
        if (call == FRESH_SLICE) continue;
        hand_full();
        state[0] = 2;
        expect("a state in which an unused process runs", call, 1, CSENGADRUL_NOT_SOUND, 0, 0);
        state[0] = 1;
        state[CSENGADRUL_OFFSET_BIRTHS] = 1;
        expect("a state in which 0 was born", call, 1, CSENGADRUL_NOT_SOUND, 0, 0);
        state[CSENGADRUL_OFFSET_BIRTHS] = 0;
        state[CSENGADRUL_OFFSET_SLICE] = SLICE - 1;
        expect("a state in which one has more ticks than a slice", call, 1, CSENGADRUL_NOT_SOUND, 0, 0);
        state[CSENGADRUL_OFFSET_SLICE] = SLICE;
        state[CSENGADRUL_OFFSET_CAPACITY + 15] = 33;
        expect("a state in which a mailbox takes too many", call, 1, CSENGADRUL_NOT_SOUND, 0, 0);
        state[CSENGADRUL_OFFSET_CAPACITY + 15] = 8;
        state[CSENGADRUL_OFFSET_MODE] = 2;
        expect("a state in which a mailbox neither refuses nor drops", call, 1, CSENGADRUL_NOT_SOUND, 0, 0);
        state[CSENGADRUL_OFFSET_MODE] = 0;
        state[CSENGADRUL_OFFSET_CHAIN + 31] = 30;
        expect("a state in which a free buffer leads to another", call, 1, CSENGADRUL_NOT_SOUND, 0, 0);
        memset(state, 0, sizeof state);
        expect("a state of zeros", call, 1, CSENGADRUL_NOT_SOUND, 0, 0);
        memset(state, 0xff, sizeof state);
        expect("a state of ones", call, 1, CSENGADRUL_NOT_SOUND, 0, 0);
    }
    fresh();
    tick(0);
}

static void sizes(void) {
    uint32_t i;
    edges_of_sizes();
    every_size();
    refusals_of_sizes_in_order();
    for (i = 0; i < 16; i++) busy_mailbox(i);
    for (i = 1; i <= 32; i++) {
        refusing_mailbox(i);
        dropping_mailbox(i);
    }
    lowest_after_a_drop();
    drops_with_all_in_use();
    newest_alone();
    waiters_at_a_dropping_mailbox();
    sizes_and_fresh_starts();
    damaged_sizes();
    damaged_fillings();
}

static void all(void) {
    sample_of_the_paper();
    table_of_the_paper();
    refusals_in_order();
    large_numbers();
    other_names();
    other_lengths(state_of, CSENGADRUL_STATE_SIZE);
    other_lengths(store_of, CSENGADRUL_STORE_SIZE);
    message_lengths();
    rooms_for(0);
    rooms_for(1);
    rooms_for(3);
    rooms_for(512);
    rooms_for(513);
    rooms_for(4096);
    listing();
    reasons_of_waiters();
    reasons_of_the_ready();
    reasons_in_a_crowd();
    refused_questions();
    names_go_stale();
    names_return();
    names_of_all();
    any_births();
    slices_at_work();
    sizes();
    pages();
    fresh_images();
    refused_slices();
    damaged_slices();
    damaged_fresh_image();
    damaged_for_each_call();
    full_tables();
}

/* Where the stack was watched, the figure is one that a call can have. */
static void stack(void) {
#ifdef WATCH_STACK
    printf("a call used at most %lu bytes of stack\n", (unsigned long)lend_deepest());
    count(lend_deepest() >= STACK_LEAST, "a call used as much stack as a state and a return take");
    count(lend_deepest() <= STACK_LIMIT, "a call keeps to the stack that docs/BOARD.md names");
#endif
}

int main(void) {
    if (!lend_begin()) {
        printf("no pages to lend\n0 passed, 1 failed\n");
        return 1;
    }
    side = AT_THE_END;
    all();
    side = AT_THE_START;
    all();
    count(codes_seen == 0x10007fffful, "every code from 0 to 18 and 32 was given");
    stack();
    printf("%u passed, %u failed\n", passed, failed);
    return failed != 0;
}
