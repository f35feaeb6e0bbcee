/* Faults that the rack must notice. Each stands in for a call: tests/rack/run compiles rack.c with
 * -Dcsengadrul_read=faulty_read or the like, and links it with this file. */
#include "ring.h"

#define CUT CSENGADRUL_BUFFER_SIZE /* bytes that are left of a message: those in its first buffer */
#define LOST 20                    /* the send that is lost, when readings wait for nobody */
#define STRAY (CSENGADRUL_OFFSET_COUNT + 2 * (CSENGADRUL_SEMAPHORES - 1)) /* in a sound state it may be anything */

/* A long message is cut, and handed on as if it were whole. */
csengadrul_answer faulty_read(const uint8_t *state, size_t state_length, const uint8_t *store, size_t store_length,
                              uint8_t *room, size_t room_length) {
    csengadrul_answer answer = csengadrul_read(state, state_length, store, store_length, room, room_length);
    if (answer.code == CSENGADRUL_DONE && answer.number > CUT) answer.number = CUT;
    return answer;
}

/* Answers as if it were done, and does nothing. */
csengadrul_answer faulty_release(uint8_t *state, size_t state_length) {
    csengadrul_row rows[CSENGADRUL_PROCESSES];
    return csengadrul_listing(state, state_length, rows, CSENGADRUL_PROCESSES);
}

/* Answers with a code that the rack does not count on: the name is that of another birth. */
csengadrul_answer faulty_stop(uint8_t *state, size_t state_length, uint32_t name) {
    return csengadrul_stop(state, state_length, name + CSENGADRUL_BIRTHS);
}

/* A send is lost, and the handler is told that it is in the ring. */
int faulty_put_send(ring *r, uint32_t mailbox, const uint8_t *message, size_t message_length) {
    static unsigned sends;
    return ++sends == LOST || ring_put_send(r, mailbox, message, message_length);
}

/* Readings are refused where they should push out others. */
csengadrul_answer faulty_mode(uint8_t *state, size_t state_length, uint32_t mailbox, uint32_t capacity,
                              uint32_t mode) {
    (void)mode;
    return csengadrul_mailbox(state, state_length, mailbox, capacity, CSENGADRUL_REFUSES);
}

static uint8_t *state_area;

csengadrul_answer faulty_fresh_slice(uint8_t *state, size_t state_length, uint32_t slice) {
    state_area = state;
    return csengadrul_fresh_slice(state, state_length, slice);
}

/* A handler writes where it should not, and the state is still sound. */
int faulty_put_tick(ring *r) {
    state_area[STRAY]++;
    return ring_put_tick(r);
}
