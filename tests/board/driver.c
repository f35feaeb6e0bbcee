/* Makes the board's calls that come on standard input, and writes what came of each.
 *
 * In, for each call, the numbers with their lowest byte first:
 *   1 byte   which call, as in lend.h
 *   4 bytes  its number: class, name of a process, mailbox, semaphore or slice
 *   2 bytes  length of the message, of the room, or rows of the table; of the state area, for a fresh start
 *            then the message's bytes, for a send, or capacity and mode, 4 bytes each, for a mailbox
 * or the byte PUT and the bytes of a state area, which is then the one lent, or the byte FLUSH, which
 * hands on all that was written.
 *
 * Out, for each call:
 *   12 bytes  code, number, running
 *   1 byte    0, or what went wrong: bits 0 to 4 for a guard byte beside an area that changed,
 *             bit 6 for a state area of another length that changed, bit 7 for a message that changed
 *   1 byte    REPLY, for whoever reads to know that both are in step
 *   540 bytes the state area
 *   4 bytes   the first byte of the store that changed, and how many from there to the last one
 *             then these bytes
 *             then the whole room, for a read, the whole table, for a listing, or kind, which and ahead, for a why
 *
 * The store is zeros at first, a room is filled with ROOM_BYTE before each read, a table with ROW_BYTE. */
#include "lend.h"

#include <stdio.h>
#include <stdlib.h>
#include <string.h>

#define PUT 100
#define FLUSH 101
#define REPLY 0xc5
#define ROOM_BYTE 0x5c
#define ROW_BYTE 0xee
#define LONGEST 8000 /* bytes of an area, or rows: so many fit into a page of lend.c, with the guard */

static uint8_t state[LONGEST]; /* the state area, and what is behind it where a fresh start is told more */
static uint8_t store[CSENGADRUL_STORE_SIZE];
static uint8_t store_before[CSENGADRUL_STORE_SIZE];
static uint8_t message[LONGEST];
static uint8_t room[LONGEST];
static csengadrul_row rows[LONGEST];

static void take(void *to, size_t length) {
    if (fread(to, 1, length, stdin) != length) exit(1);
}

static void give(const void *from, size_t length) {
    if (fwrite(from, 1, length, stdout) != length) exit(1);
}

static uint32_t take_number(int bytes) {
    uint8_t in[4];
    uint32_t value = 0;
    take(in, (size_t)bytes);
    while (bytes-- > 0) value = value << 8 | in[bytes];
    return value;
}

static void give_number(uint32_t value, int bytes) {
    uint8_t out[4];
    int i;
    for (i = 0; i < bytes; i++) out[i] = (uint8_t)(value >> 8 * i);
    give(out, (size_t)bytes);
}

static void give_store_change(int changed) {
    size_t first = 0, last = sizeof store;
    if (!changed) {
        give_number(0, 4);
        return;
    }
    while (store[first] == store_before[first]) first++;
    while (store[last - 1] == store_before[last - 1]) last--;
    give_number((uint32_t)first, 2);
    give_number((uint32_t)(last - first), 2);
    give(store + first, last - first);
}

static void lay(area *a, enum lies lies, size_t told, size_t bytes, void *content) {
    a->lies = lies;
    a->told = told;
    a->bytes = bytes;
    a->content = content;
}

static void make(enum call call, numbers given, size_t length, enum lies lies) {
    size_t state_length = call == FRESH || call == FRESH_SLICE ? length : CSENGADRUL_STATE_SIZE;
    unsigned wrong;
    area areas[KINDS];
    outcome o;
    lay(&areas[STATE], lies, state_length, state_length, state);
    lay(&areas[STORE], lies, sizeof store, sizeof store, store);
    lay(&areas[MESSAGE], lies, length, length, message);
    lay(&areas[ROOM], lies, length, length, room);
    lay(&areas[ROWS], lies, length, length * sizeof *rows, rows);
    if (call == SEND || call == READ) memcpy(store_before, store, sizeof store);
    if (call == READ) memset(room, ROOM_BYTE, length);
    if (call == LISTING) memset(rows, ROW_BYTE, length * sizeof *rows);
    o = lend(call, given, areas);
    give_number(o.answer.code, 4);
    give_number(o.answer.number, 4);
    give_number(o.answer.running, 4);
    wrong = o.escaped | (o.changed >> MESSAGE & 1) << 7;
    if (state_length != CSENGADRUL_STATE_SIZE) wrong |= (o.changed >> STATE & 1) << 6;
    give_number(wrong, 1);
    give_number(REPLY, 1);
    give(state, CSENGADRUL_STATE_SIZE);
    give_store_change(o.changed >> STORE & 1);
    if (call == READ) give(room, length);
    if (call == LISTING) give(rows, length * sizeof *rows);
    if (call == WHY) {
        give_number(o.reason.kind, 4);
        give_number(o.reason.which, 4);
        give_number(o.reason.ahead, 4);
    }
}

int main(void) {
    unsigned long turn;
    uint8_t which;
    if (!lend_begin()) return 1;
    for (turn = 0; fread(&which, 1, 1, stdin) == 1; turn++) {
        if (which == PUT) {
            take(state, CSENGADRUL_STATE_SIZE);
        } else if (which == FLUSH) {
            if (fflush(stdout) != 0) return 1;
        } else {
            numbers given = {0, 0, 0};
            size_t length;
            given.number = take_number(4);
            length = take_number(2);
            if (which > MAILBOX || length > LONGEST) return 1;
            if (which == SEND) take(message, length);
            if (which == MAILBOX) {
                given.capacity = take_number(4);
                given.mode = take_number(4);
            }
            make((enum call)which, given, length, turn % 2 ? AT_THE_END : AT_THE_START);
        }
    }
    return fflush(stdout) != 0;
}
