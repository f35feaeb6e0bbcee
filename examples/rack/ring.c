/*
 * An entry is whole before `put` shows it, and its place is used again only after
 * `taken` has passed it. This relies on one core, which sees its own writes in
 * order, and on compilers, which keep volatile accesses in order. Where handlers
 * run on another core, a barrier of that machine goes before each write of `put`
 * and `taken`, and after each read of the one that the other side writes.
 */
#include "ring.h"

enum { SEND, SIGNAL, TICK };

static int put(ring *r, uint32_t call, uint32_t which, const uint8_t *message, size_t length) {
    volatile ring_entry *entry = &r->entries[r->put % RING_SIZE];
    size_t i;
    if (r->put - r->taken == RING_SIZE || length > RING_BYTES) {
        r->lost = r->lost + 1;
        return 0;
    }
    entry->call = call;
    entry->which = which;
    entry->length = length;
    for (i = 0; i < length; i++) entry->message[i] = message[i];
    r->put = r->put + 1;
    return 1;
}

int ring_put_send(ring *r, uint32_t mailbox, const uint8_t *message, size_t message_length) {
    return put(r, SEND, mailbox, message, message_length);
}

int ring_put_signal(ring *r, uint32_t semaphore) {
    return put(r, SIGNAL, semaphore, NULL, 0);
}

int ring_put_tick(ring *r) {
    return put(r, TICK, 0, NULL, 0);
}

uint32_t ring_drain(ring *r, uint8_t *state, size_t state_length, uint8_t *store, size_t store_length) {
    uint32_t end = r->put;
    while (r->taken != end) {
        const volatile ring_entry *entry = &r->entries[r->taken % RING_SIZE];
        uint32_t which = entry->which, code;
        uint8_t message[RING_BYTES];
        size_t length = entry->length, i;
        for (i = 0; i < length; i++) message[i] = entry->message[i];
        switch (entry->call) {
        case SEND: code = csengadrul_send(state, state_length, store, store_length, which, message, length).code; break;
        case SIGNAL: code = csengadrul_signal(state, state_length, which).code; break;
        default: code = csengadrul_tick(state, state_length).code; break;
        }
        if (code != CSENGADRUL_DONE) return code;
        r->taken = r->taken + 1;
    }
    return CSENGADRUL_DONE;
}
