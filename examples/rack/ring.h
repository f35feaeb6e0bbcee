/*
 * The interrupt ring: where a handler leaves what it has to say to the kernel.
 *
 * A call must not begin while another one on the same areas is under way, so a
 * handler that may come during a call makes none. It puts its send, signal or
 * tick into a ring, and the main loop makes these calls between its own, in the
 * order in which they were put.
 *
 * One ring is for the main loop and for handlers on its core that do not interrupt
 * each other; handlers of another priority need another ring. A mailbox that refuses
 * and may stay full for long needs one too, because what was put later waits behind
 * it. A ring of zeros is empty.
 */
#ifndef RING_H
#define RING_H

#include "csengadrul.h"

#ifdef __cplusplus
extern "C" {
#endif

#define RING_SIZE 32  /* entries; a power of two, so that the counts may wrap around */
#define RING_BYTES 16 /* bytes of the longest message that a handler sends */

typedef struct {
    uint32_t call, which; /* send, signal or tick; the mailbox or semaphore */
    size_t length;
    uint8_t message[RING_BYTES];
} ring_entry;

typedef struct {
    volatile ring_entry entries[RING_SIZE];
    volatile uint32_t put;   /* entries put so far; only handlers write it */
    volatile uint32_t taken; /* entries whose call was done; only the main loop writes it */
    volatile uint32_t lost;  /* entries that were refused; only handlers write it */
} ring;

/* For handlers. Each answers 1; or, where the ring is full or the message is over
 * RING_BYTES, 0, and then the entry counts as lost. */
int ring_put_send(ring *r, uint32_t mailbox, const uint8_t *message, size_t message_length);
int ring_put_signal(ring *r, uint32_t semaphore);
int ring_put_tick(ring *r);

/* For the main loop: makes the calls that were put before it began. Answers
 * CSENGADRUL_DONE, or the code of the first call that is refused: that one stays
 * first and is made again the next time. A full mailbox, no free buffer or a full
 * count may have passed by then; any other code is a fault that stays. */
uint32_t ring_drain(ring *r, uint8_t *state, size_t state_length, uint8_t *store, size_t store_length);

#ifdef __cplusplus
}
#endif

#endif
