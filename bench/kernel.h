/* A kernel in plain C, for comparison: the state behind a pointer, changed in place, nothing checked
 * about it. Each call gives the answer of documents 01 and 02 on every sound state. */
#ifndef BENCH_KERNEL_H
#define BENCH_KERNEL_H

#include "csengadrul.h"

#include <string.h>

#define PROCESS_NODES (CSENGADRUL_PROCESSES + CSENGADRUL_CLASSES + CSENGADRUL_MAILBOXES + CSENGADRUL_SEMAPHORES)
#define BUFFER_NODES (CSENGADRUL_BUFFERS + CSENGADRUL_MAILBOXES)
#define CLASS_HEAD CSENGADRUL_PROCESSES
#define MAILBOX_HEAD (CLASS_HEAD + CSENGADRUL_CLASSES)
#define SEMAPHORE_HEAD (MAILBOX_HEAD + CSENGADRUL_MAILBOXES)
#define BOX_HEAD CSENGADRUL_BUFFERS

/* Rings of nodes and chains of buffers, as docs/IMAGE.md has them. */
struct kernel {
    uint8_t running;
    uint8_t class_of[CSENGADRUL_PROCESSES];
    uint8_t ticks[CSENGADRUL_PROCESSES];
    uint8_t next[PROCESS_NODES];
    uint8_t before[PROCESS_NODES];
    uint32_t ready;
    uint32_t unused;
    uint8_t box_next[BUFFER_NODES];
    uint8_t box_before[BUFFER_NODES];
    uint8_t hand[CSENGADRUL_PROCESSES];
    uint32_t full;
    uint16_t length[CSENGADRUL_BUFFERS];
    uint32_t free;
    uint8_t chain[CSENGADRUL_BUFFERS];
    uint16_t count[CSENGADRUL_SEMAPHORES];
    uint8_t births[CSENGADRUL_PROCESSES];
    uint8_t slice;
    uint8_t capacity[CSENGADRUL_MAILBOXES];
    uint8_t mode[CSENGADRUL_MAILBOXES];
};

static csengadrul_answer answer(const struct kernel *k, uint32_t code, uint32_t number) {
    csengadrul_answer a;
    a.code = code;
    a.number = number;
    a.running = k->running;
    return a;
}

/* A refusal that tells nobody who runs. */
static csengadrul_answer refusal(uint32_t code) {
    csengadrul_answer a = {0, 0, 0};
    a.code = code;
    return a;
}

/* Between two neighbours. */
static void link_in(uint8_t *next, uint8_t *before, uint8_t left, uint8_t node, uint8_t right) {
    next[left] = node;
    before[node] = left;
    next[node] = right;
    before[right] = node;
}

static void link_out(uint8_t *next, uint8_t *before, uint8_t node) {
    uint8_t left = before[node], right = next[node];
    next[left] = right;
    before[right] = left;
    next[node] = node;
    before[node] = node;
}

static void to_rear(struct kernel *k, uint8_t head, uint8_t p) {
    link_in(k->next, k->before, k->before[head], p, head);
}

static void to_front(struct kernel *k, uint8_t head, uint8_t p) {
    link_in(k->next, k->before, head, p, k->next[head]);
}

/* Out of a class's queue, with its bit. */
static void leave(struct kernel *k, uint8_t p) {
    uint8_t head = CLASS_HEAD + k->class_of[p];
    link_out(k->next, k->before, p);
    if (k->next[head] == head) k->ready &= ~(1u << k->class_of[p]);
}

static void choose(struct kernel *k) {
    uint8_t class_number;
    k->running = 0;
    if (!k->ready) return;
    class_number = (uint8_t)(31 - __builtin_clz(k->ready));
    k->running = k->next[CLASS_HEAD + class_number];
    leave(k, k->running);
}

static void join_class(struct kernel *k, uint8_t p) {
    k->ticks[p] = k->slice;
    to_rear(k, (uint8_t)(CLASS_HEAD + k->class_of[p]), p);
    k->ready |= 1u << k->class_of[p];
}

static void make_ready(struct kernel *k, uint8_t p) {
    uint8_t ran = k->running;
    if (ran && k->class_of[p] <= k->class_of[ran]) {
        join_class(k, p);
        return;
    }
    k->ticks[p] = k->slice;
    if (ran) {
        to_front(k, (uint8_t)(CLASS_HEAD + k->class_of[ran]), ran);
        k->ready |= 1u << k->class_of[ran];
    }
    k->running = p;
}

static void pause_at(struct kernel *k, uint8_t head) {
    k->ticks[k->running] = k->slice;
    to_rear(k, head, k->running);
    choose(k);
}

static unsigned buffers_for(size_t length) {
    return length == 0 ? 1 : (unsigned)((length - 1) / CSENGADRUL_BUFFER_SIZE + 1);
}

/* All buffers of the message that begins in b. */
static void free_message(struct kernel *k, uint8_t b) {
    uint8_t next = k->chain[b];
    k->length[b] = 0;
    k->free |= 1u << b;
    while (next != b) {
        k->chain[b] = b;
        b = next;
        next = k->chain[b];
        k->free |= 1u << b;
    }
}

static uint8_t take_lowest(struct kernel *k) {
    uint8_t b = (uint8_t)__builtin_ctz(k->free);
    k->free &= k->free - 1;
    return b;
}

/* The lowest free buffers for a message of this length, which are there, as a chain. Gives the first. */
static uint8_t take_buffers(struct kernel *k, size_t length) {
    uint8_t first = take_lowest(k), b = first, next;
    unsigned more = buffers_for(length) - 1;
    k->length[first] = (uint16_t)length;
    for (; more > 0; more--, b = next) k->chain[b] = next = take_lowest(k);
    return first;
}

static size_t piece(size_t length) {
    return length < CSENGADRUL_BUFFER_SIZE ? length : CSENGADRUL_BUFFER_SIZE;
}

static void write_message(const struct kernel *k, uint8_t b, uint8_t *store, const uint8_t *message, size_t length) {
    size_t part;
    for (; length > 0; length -= part, message += part, b = k->chain[b]) {
        part = piece(length);
        memcpy(store + CSENGADRUL_BUFFER_SIZE * b, message, part);
    }
}

static void read_message(const struct kernel *k, uint8_t b, const uint8_t *store, uint8_t *room) {
    size_t part, length = k->length[b];
    for (; length > 0; length -= part, room += part, b = k->chain[b]) {
        part = piece(length);
        memcpy(room, store + CSENGADRUL_BUFFER_SIZE * b, part);
    }
}

static void free_hand(struct kernel *k, uint8_t p) {
    uint8_t b = k->hand[p];
    k->full &= ~(1u << p);
    k->hand[p] = 0;
    free_message(k, b);
}

static void take_out(struct kernel *k, uint8_t p) {
    if (k->full >> p & 1) free_hand(k, p);
    if (p == k->running) choose(k);
    else leave(k, p);
    k->class_of[p] = 0;
    k->ticks[p] = 0;
    k->unused |= 1u << p;
}

static csengadrul_answer kernel_fresh(struct kernel *k, uint32_t slice) {
    int i;
    if (slice < 1 || slice > CSENGADRUL_LONGEST_SLICE) return refusal(CSENGADRUL_NO_SLICE);
    memset(k, 0, sizeof *k);
    for (i = 0; i < PROCESS_NODES; i++) k->next[i] = k->before[i] = (uint8_t)i;
    for (i = 0; i < BUFFER_NODES; i++) k->box_next[i] = k->box_before[i] = (uint8_t)i;
    for (i = 0; i < CSENGADRUL_BUFFERS; i++) k->chain[i] = (uint8_t)i;
    k->unused = ~1u;
    k->free = ~0u;
    k->slice = (uint8_t)slice;
    memset(k->capacity, CSENGADRUL_USUAL_CAPACITY, sizeof k->capacity);
    return answer(k, CSENGADRUL_DONE, 0);
}

static csengadrul_answer kernel_create(struct kernel *k, uint32_t class_number) {
    uint8_t p;
    if (class_number >= CSENGADRUL_CLASSES) return answer(k, CSENGADRUL_NO_CLASS, 0);
    if (!k->unused) return answer(k, CSENGADRUL_ALL_PROCESSES, 0);
    p = (uint8_t)__builtin_ctz(k->unused);
    k->unused &= k->unused - 1;
    k->class_of[p] = (uint8_t)class_number;
    k->births[p]++;
    make_ready(k, p);
    return answer(k, CSENGADRUL_DONE, p + CSENGADRUL_BIRTHS * (uint32_t)k->births[p]);
}

/* Whether a number, in use or not, has this name now. */
static int is_name(const struct kernel *k, uint32_t name) {
    uint32_t number = CSENGADRUL_NUMBER(name);
    return number < CSENGADRUL_PROCESSES && name / CSENGADRUL_BIRTHS == k->births[number];
}

static csengadrul_answer kernel_stop(struct kernel *k, uint32_t name) {
    uint32_t p = CSENGADRUL_NUMBER(name);
    if (!is_name(k, name) || p == 0 || k->unused >> p & 1) return answer(k, CSENGADRUL_NO_PROCESS, 0);
    take_out(k, (uint8_t)p);
    return answer(k, CSENGADRUL_DONE, 0);
}

static csengadrul_answer kernel_end(struct kernel *k) {
    if (!k->running) return answer(k, CSENGADRUL_NO_CALLER, 0);
    take_out(k, k->running);
    return answer(k, CSENGADRUL_DONE, 0);
}

static csengadrul_answer kernel_yield(struct kernel *k) {
    if (!k->running) return answer(k, CSENGADRUL_NO_CALLER, 0);
    join_class(k, k->running);
    choose(k);
    return answer(k, CSENGADRUL_DONE, 0);
}

static csengadrul_answer kernel_class(struct kernel *k, uint32_t class_number) {
    if (!k->running) return answer(k, CSENGADRUL_NO_CALLER, 0);
    if (class_number >= CSENGADRUL_CLASSES) return answer(k, CSENGADRUL_NO_CLASS, 0);
    if (class_number != k->class_of[k->running]) {
        k->class_of[k->running] = (uint8_t)class_number;
        join_class(k, k->running);
        choose(k);
    }
    return answer(k, CSENGADRUL_DONE, 0);
}

static csengadrul_answer kernel_tick(struct kernel *k) {
    if (k->running && --k->ticks[k->running] == 0) {
        join_class(k, k->running);
        choose(k);
    }
    return answer(k, CSENGADRUL_DONE, 0);
}

/* Whether nothing is queued in a mailbox and nobody waits at it. */
static int box_idle(const struct kernel *k, uint32_t mailbox) {
    return k->box_next[BOX_HEAD + mailbox] == BOX_HEAD + mailbox &&
           k->next[MAILBOX_HEAD + mailbox] == MAILBOX_HEAD + mailbox;
}

static csengadrul_answer kernel_mailbox(struct kernel *k, uint32_t mailbox, uint32_t capacity, uint32_t mode) {
    if (mailbox >= CSENGADRUL_MAILBOXES) return answer(k, CSENGADRUL_NO_MAILBOX, 0);
    if (capacity < 1 || capacity > CSENGADRUL_LARGEST_CAPACITY || mode > CSENGADRUL_DROPS)
        return answer(k, CSENGADRUL_NO_SIZE, 0);
    if (!box_idle(k, mailbox)) return answer(k, CSENGADRUL_MAILBOX_BUSY, 0);
    k->capacity[mailbox] = (uint8_t)capacity;
    k->mode[mailbox] = (uint8_t)mode;
    return answer(k, CSENGADRUL_DONE, 0);
}

static int box_full(const struct kernel *k, uint32_t mailbox) {
    uint8_t head = (uint8_t)(BOX_HEAD + mailbox), b = k->box_next[head];
    int messages = 0;
    for (; b != head; b = k->box_next[b]) messages++;
    return messages >= k->capacity[mailbox];
}

/* Whether so many buffers are free, or would be after a drop of this message. */
static int enough_free(const struct kernel *k, unsigned buffers, int drops, uint8_t oldest) {
    unsigned free = (unsigned)__builtin_popcount(k->free);
    return free >= buffers || (drops && free + buffers_for(k->length[oldest]) >= buffers);
}

static void drop(struct kernel *k, uint8_t b) {
    link_out(k->box_next, k->box_before, b);
    free_message(k, b);
}

static csengadrul_answer kernel_send(struct kernel *k, uint8_t *store, size_t store_length, uint32_t mailbox,
                                     const uint8_t *message, size_t length) {
    uint8_t b, head, waiters, p;
    int full;
    if (store_length != CSENGADRUL_STORE_SIZE) return answer(k, CSENGADRUL_OTHER_STORE, 0);
    if (mailbox >= CSENGADRUL_MAILBOXES) return answer(k, CSENGADRUL_NO_MAILBOX, 0);
    if (length > CSENGADRUL_MESSAGE_SIZE) return answer(k, CSENGADRUL_LONG_MESSAGE, 0);
    head = (uint8_t)(BOX_HEAD + mailbox);
    full = box_full(k, mailbox);
    if (full && k->mode[mailbox] == CSENGADRUL_REFUSES) return answer(k, CSENGADRUL_MAILBOX_FULL, 0);
    if (!enough_free(k, buffers_for(length), full, k->box_next[head])) return answer(k, CSENGADRUL_NO_BUFFER, 0);
    if (full) drop(k, k->box_next[head]);
    b = take_buffers(k, length);
    write_message(k, b, store, message, length);
    waiters = (uint8_t)(MAILBOX_HEAD + mailbox);
    p = k->next[waiters];
    if (p == waiters) {
        link_in(k->box_next, k->box_before, k->box_before[head], b, head);
    } else {
        link_out(k->next, k->before, p);
        k->hand[p] = b;
        k->full |= 1u << p;
        make_ready(k, p);
    }
    return answer(k, CSENGADRUL_DONE, 0);
}

static csengadrul_answer kernel_receive(struct kernel *k, uint32_t mailbox) {
    uint8_t head, b, p = k->running;
    if (!p) return answer(k, CSENGADRUL_NO_CALLER, 0);
    if (mailbox >= CSENGADRUL_MAILBOXES) return answer(k, CSENGADRUL_NO_MAILBOX, 0);
    if (k->full >> p & 1) return answer(k, CSENGADRUL_HAND_FULL, 0);
    head = (uint8_t)(BOX_HEAD + mailbox);
    b = k->box_next[head];
    if (b == head) {
        pause_at(k, (uint8_t)(MAILBOX_HEAD + mailbox));
        return answer(k, CSENGADRUL_WAITS, 0);
    }
    link_out(k->box_next, k->box_before, b);
    k->hand[p] = b;
    k->full |= 1u << p;
    return answer(k, CSENGADRUL_DONE, k->length[b]);
}

static csengadrul_answer kernel_read(const struct kernel *k, const uint8_t *store, size_t store_length, uint8_t *room,
                                     size_t room_length) {
    uint8_t p = k->running, b;
    if (store_length != CSENGADRUL_STORE_SIZE) return answer(k, CSENGADRUL_OTHER_STORE, 0);
    if (!p) return answer(k, CSENGADRUL_NO_CALLER, 0);
    if (!(k->full >> p & 1)) return answer(k, CSENGADRUL_HAND_EMPTY, 0);
    b = k->hand[p];
    if (room_length < k->length[b]) return answer(k, CSENGADRUL_SHORT_ROOM, k->length[b]);
    read_message(k, b, store, room);
    return answer(k, CSENGADRUL_DONE, k->length[b]);
}

static csengadrul_answer kernel_release(struct kernel *k) {
    uint8_t p = k->running;
    if (!p) return answer(k, CSENGADRUL_NO_CALLER, 0);
    if (!(k->full >> p & 1)) return answer(k, CSENGADRUL_HAND_EMPTY, 0);
    free_hand(k, p);
    return answer(k, CSENGADRUL_DONE, 0);
}

static csengadrul_answer kernel_signal(struct kernel *k, uint32_t semaphore) {
    uint8_t head, p;
    if (semaphore >= CSENGADRUL_SEMAPHORES) return answer(k, CSENGADRUL_NO_SEMAPHORE, 0);
    if (k->count[semaphore] == CSENGADRUL_COUNT_LIMIT) return answer(k, CSENGADRUL_COUNT_FULL, 0);
    head = (uint8_t)(SEMAPHORE_HEAD + semaphore);
    p = k->next[head];
    if (p == head) {
        k->count[semaphore]++;
    } else {
        link_out(k->next, k->before, p);
        make_ready(k, p);
    }
    return answer(k, CSENGADRUL_DONE, 0);
}

static csengadrul_answer kernel_wait(struct kernel *k, uint32_t semaphore) {
    if (!k->running) return answer(k, CSENGADRUL_NO_CALLER, 0);
    if (semaphore >= CSENGADRUL_SEMAPHORES) return answer(k, CSENGADRUL_NO_SEMAPHORE, 0);
    if (k->count[semaphore]) {
        k->count[semaphore]--;
        return answer(k, CSENGADRUL_DONE, 0);
    }
    pause_at(k, (uint8_t)(SEMAPHORE_HEAD + semaphore));
    return answer(k, CSENGADRUL_WAITS, 0);
}

static csengadrul_row row_out_of_queues(const struct kernel *k, unsigned p) {
    csengadrul_row row = {CSENGADRUL_UNUSED, 0, 0, 0, 0, 0, 0};
    row.class_ = k->class_of[p];
    row.ticks = k->ticks[p];
    row.full = k->full >> p & 1;
    row.length = row.full ? k->length[k->hand[p]] : 0;
    return row;
}

/* The places of those in these queues, each queue walked once. */
static void list_queues(const struct kernel *k, csengadrul_row *rows, uint8_t first_head, uint8_t queues,
                        uint8_t place) {
    uint8_t which, position, head, p;
    for (which = 0; which < queues; which++) {
        head = (uint8_t)(first_head + which);
        position = 0;
        for (p = k->next[head]; p != head; p = k->next[p]) {
            rows[p].place = place;
            rows[p].which = which;
            rows[p].position = position++;
        }
    }
}

static csengadrul_answer kernel_listing(const struct kernel *k, csengadrul_row *rows, size_t row_count) {
    unsigned p;
    if (row_count < CSENGADRUL_PROCESSES) return answer(k, CSENGADRUL_SHORT_ROOM, CSENGADRUL_PROCESSES);
    for (p = 0; p < CSENGADRUL_PROCESSES; p++) rows[p] = row_out_of_queues(k, p);
    list_queues(k, rows, CLASS_HEAD, CSENGADRUL_CLASSES, CSENGADRUL_READY);
    list_queues(k, rows, MAILBOX_HEAD, CSENGADRUL_MAILBOXES, CSENGADRUL_AT_MAILBOX);
    list_queues(k, rows, SEMAPHORE_HEAD, CSENGADRUL_SEMAPHORES, CSENGADRUL_AT_SEMAPHORE);
    rows[0].place = CSENGADRUL_STANDING_BY;
    rows[k->running].place = CSENGADRUL_RUNNING;
    rows[k->running].which = k->class_of[k->running];
    return answer(k, CSENGADRUL_DONE, 0);
}

static csengadrul_reason reason(csengadrul_answer a, uint32_t kind, uint32_t which, uint32_t ahead) {
    csengadrul_reason r;
    r.code = a.code;
    r.number = a.number;
    r.running = a.running;
    r.kind = kind;
    r.which = which;
    r.ahead = ahead;
    return r;
}

static csengadrul_reason kernel_why(const struct kernel *k, uint32_t name) {
    csengadrul_answer done = answer(k, CSENGADRUL_DONE, 0);
    uint32_t p = CSENGADRUL_NUMBER(name), ahead = 0;
    uint8_t node;
    if (!is_name(k, name)) return reason(answer(k, CSENGADRUL_NO_PROCESS, 0), 0, 0, 0);
    if (p == k->running) return reason(done, CSENGADRUL_WHY_RUNNING, 0, 0);
    if (p == 0) return reason(done, CSENGADRUL_WHY_BEHIND, k->running, 0);
    if (k->unused >> p & 1) return reason(done, CSENGADRUL_WHY_UNUSED, 0, 0);
    for (node = k->before[p]; node < CLASS_HEAD; node = k->before[node]) ahead++;
    if (node >= SEMAPHORE_HEAD) return reason(done, CSENGADRUL_WHY_SEMAPHORE, node - SEMAPHORE_HEAD, ahead);
    if (node >= MAILBOX_HEAD) return reason(done, CSENGADRUL_WHY_MAILBOX, node - MAILBOX_HEAD, ahead);
    if (k->class_of[p] == k->class_of[k->running]) return reason(done, CSENGADRUL_WHY_READY, 0, ahead + 1);
    return reason(done, CSENGADRUL_WHY_BEHIND, k->running, 0);
}

#endif
