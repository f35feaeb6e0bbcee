/* The decision as the board makes it, with the same loops: rings and chains are walked one node after
 * the other, and where entries do not hang together all of them are looked at, with no exit before the
 * last, so that the compiler can take many at once. A place is 0 for none, else the number of the queue
 * plus 1. */
#include "calls.h"

#define MEMBERS 32 /* processes, or buffers: the nodes that are no heads */
#define AT_MAILBOXES (CSENGADRUL_CLASSES + 1)
#define AT_SEMAPHORES (AT_MAILBOXES + CSENGADRUL_MAILBOXES)
#define IN_HAND (CSENGADRUL_MAILBOXES + 1)

/* Round the ring of a head, each member marked; it closes, and nobody has a mark already. */
static inline int walk(const uint8_t *next, const uint8_t *before, unsigned nodes, unsigned head, uint8_t at[MEMBERS]) {
    unsigned a = head, b;
    if (next[head] == head && before[head] == head) return 1;
    for (;;) {
        b = next[a];
        if (b >= nodes || before[b] != a) return 0;
        if (b == head) return 1;
        if (b >= MEMBERS || at[b]) return 0;
        at[b] = (uint8_t)(head - MEMBERS + 1);
        a = b;
    }
}

/* Whether a member has a mark, or is linked to itself. */
static inline uint8_t is_settled(uint8_t mark, uint8_t after, uint8_t ahead, uint8_t self) {
    return mark != 0 || (after == self && ahead == self);
}

static inline int all_settled(const uint8_t *next, const uint8_t *before, const uint8_t at[MEMBERS]) {
    uint8_t wrong = 0;
    unsigned i;
    for (i = 0; i < MEMBERS; i++) wrong |= !is_settled(at[i], next[i], before[i], (uint8_t)i);
    return !wrong;
}

/* Whether the links are rings, and the place of each member. */
static inline int find_places(const uint8_t *next, const uint8_t *before, unsigned nodes, uint8_t at[MEMBERS]) {
    unsigned head;
    memset(at, 0, MEMBERS);
    for (head = MEMBERS; head < nodes; head++)
        if (!walk(next, before, nodes, head, at)) return 0;
    return all_settled(next, before, at);
}

static inline uint8_t is_vacant(uint8_t place, uint8_t runs, uint8_t class_number, uint8_t ticks) {
    return place == 0 && !runs && class_number == 0 && ticks == 0;
}

/* Whether a process that runs or stands in a queue may have this class and these ticks. */
static inline uint8_t block_fits(uint8_t place, uint8_t class_number, uint8_t ticks, uint8_t slice) {
    if (class_number >= CSENGADRUL_CLASSES || ticks < 1 || ticks > slice) return 0;
    if (place == 0) return 1;
    return place < AT_MAILBOXES ? place == class_number + 1 : ticks == slice;
}

/* Whether a process is in exactly one place, and its block is as that place asks. */
static inline uint8_t seat_fits(uint8_t place, uint8_t runs, uint8_t class_number, uint8_t ticks, uint8_t unused,
                                uint8_t slice) {
    if (unused) return is_vacant(place, runs, class_number, ticks);
    return runs == (place == 0) && block_fits(place, class_number, ticks, slice);
}

static inline int seats_fit(const struct kernel *k, const uint8_t at[MEMBERS]) {
    uint8_t wrong = 0;
    unsigned p;
    if (k->unused & 1 || !is_vacant(at[0], 0, k->class_of[0], k->ticks[0])) return 0;
    for (p = 1; p < CSENGADRUL_PROCESSES; p++)
        wrong |= !seat_fits(at[p], p == k->running, k->class_of[p], k->ticks[p], k->unused >> p & 1, k->slice);
    return !wrong;
}

/* A bit for each class that has someone ready. */
static inline uint32_t ready_word(const uint8_t next[PROCESS_NODES]) {
    uint32_t ready = 0;
    unsigned c;
    for (c = 0; c < CSENGADRUL_CLASSES; c++)
        if (next[CLASS_HEAD + c] < CSENGADRUL_PROCESSES) ready |= 1u << c;
    return ready;
}

/* Whether nobody is ready in a class above the runner's, and nobody at all where 0 runs. */
static inline int is_topmost(const struct kernel *k) {
    if (k->ready == 0) return 1;
    return k->running != 0 && 31 - __builtin_clz(k->ready) <= k->class_of[k->running];
}

static inline int processes_sound(const struct kernel *k, uint8_t at[MEMBERS]) {
    if (!find_places(k->next, k->before, PROCESS_NODES, at)) return 0;
    if (k->running >= CSENGADRUL_PROCESSES || !seats_fit(k, at)) return 0;
    return k->ready == ready_word(k->next) && is_topmost(k);
}

/* Whether a mailbox holds more than its capacity. */
static inline int is_crowded(const uint8_t next[BUFFER_NODES], unsigned mailbox, unsigned capacity) {
    unsigned steps, b = next[BOX_HEAD + mailbox];
    for (steps = 0; steps <= capacity; steps++) {
        if (b >= CSENGADRUL_BUFFERS) return 0;
        b = next[b];
    }
    return 1;
}

static inline int boxes_fit(const struct kernel *k) {
    unsigned m;
    for (m = 0; m < CSENGADRUL_MAILBOXES; m++)
        if (is_crowded(k->box_next, m, k->capacity[m])) return 0;
    return 1;
}

static inline int all_zero(const uint8_t hand[CSENGADRUL_PROCESSES]) {
    uint8_t wrong = 0;
    unsigned p;
    for (p = 0; p < CSENGADRUL_PROCESSES; p++) wrong |= hand[p] != 0;
    return !wrong;
}

/* Each full hand, lowest first, gets its buffer, which has no other place; what is left in the hands is 0. */
static inline int hands_fit(const uint8_t hand[CSENGADRUL_PROCESSES], uint32_t full, uint8_t at[MEMBERS]) {
    uint8_t left[CSENGADRUL_PROCESSES];
    unsigned p, b;
    memcpy(left, hand, sizeof left);
    for (; full != 0; full &= full - 1) {
        p = (unsigned)__builtin_ctz(full);
        b = left[p];
        if (b >= CSENGADRUL_BUFFERS || at[b]) return 0;
        at[b] = IN_HAND;
        left[p] = 0;
    }
    return all_zero(left);
}

static inline uint8_t length_fits(uint8_t place, uint16_t length) {
    return place == 0 ? length == 0 : length <= CSENGADRUL_MESSAGE_SIZE;
}

static inline int lengths_fit(const struct kernel *k, const uint8_t at[MEMBERS]) {
    uint8_t wrong = 0;
    unsigned b;
    for (b = 0; b < CSENGADRUL_BUFFERS; b++) wrong |= !length_fits(at[b], k->length[b]);
    return !wrong;
}

/* How many buffers the message has that begins in each: none where it has no place. */
static inline void find_needs(const uint16_t length[MEMBERS], const uint8_t at[MEMBERS], uint8_t need[MEMBERS]) {
    unsigned b;
    for (b = 0; b < CSENGADRUL_BUFFERS; b++) need[b] = at[b] == 0 ? 0 : (uint8_t)buffers_for(length[b]);
}

/* Along the chain of a message, each of its buffers taken out of the open ones; the last links to itself. */
static inline int walk_chain(const uint8_t chain[MEMBERS], unsigned b, unsigned need, uint32_t *open) {
    if (need == 0) return 1;
    for (;;) {
        if (b >= CSENGADRUL_BUFFERS || !(*open >> b & 1)) return 0;
        *open &= ~(1u << b);
        if (--need == 0) return chain[b] == b;
        b = chain[b];
    }
}

static inline int free_ones_rest(const struct kernel *k) {
    uint8_t wrong = 0;
    unsigned b;
    for (b = 0; b < CSENGADRUL_BUFFERS; b++) wrong |= k->free >> b & 1 && k->chain[b] != b;
    return !wrong;
}

static inline int all_separate(const uint8_t chain[MEMBERS]) {
    uint8_t wrong = 0;
    unsigned b;
    for (b = 0; b < CSENGADRUL_BUFFERS; b++) wrong |= chain[b] != b;
    return !wrong;
}

static inline int all_single(const uint8_t need[MEMBERS], uint32_t free) {
    uint8_t wrong = 0;
    unsigned b;
    for (b = 0; b < CSENGADRUL_BUFFERS; b++) wrong |= need[b] != !(free >> b & 1);
    return !wrong;
}

static inline int walks_fit(const struct kernel *k, const uint8_t need[MEMBERS]) {
    uint32_t open = ~k->free;
    unsigned b;
    for (b = 0; b < CSENGADRUL_BUFFERS; b++)
        if (!walk_chain(k->chain, b, need[b], &open)) return 0;
    return open == 0 && free_ones_rest(k);
}

/* Whether the messages have all buffers that are not free, none twice: a short way where each links to itself. */
static inline int chains_fit(const struct kernel *k, const uint8_t at[MEMBERS]) {
    uint8_t need[MEMBERS];
    find_needs(k->length, at, need);
    return all_separate(k->chain) ? all_single(need, k->free) : walks_fit(k, need);
}

static inline int mail_sound(const struct kernel *k) {
    uint8_t at[MEMBERS];
    if (!find_places(k->box_next, k->box_before, BUFFER_NODES, at)) return 0;
    return boxes_fit(k) && hands_fit(k->hand, k->full, at) && lengths_fit(k, at) && chains_fit(k, at);
}

/* Whether a process may have a full hand: one that runs, is ready or waits at a semaphore. */
static inline int may_hold(uint8_t place, int runs) {
    return place == 0 ? runs : place < AT_MAILBOXES || place >= AT_SEMAPHORES;
}

/* Whether nothing lies, and nothing is counted, where a process with this place waits. */
static inline int lies_nothing(const struct kernel *k, uint8_t place) {
    if (place < AT_MAILBOXES) return 1;
    if (place < AT_SEMAPHORES) return k->box_next[BOX_HEAD + place - AT_MAILBOXES] >= CSENGADRUL_BUFFERS;
    return k->count[place - AT_SEMAPHORES] == 0;
}

static inline int waits_fit(const struct kernel *k, const uint8_t at[MEMBERS]) {
    unsigned p;
    if (k->full & 1) return 0;
    for (p = 1; p < CSENGADRUL_PROCESSES; p++) {
        if (k->full >> p & 1 && !may_hold(at[p], p == k->running)) return 0;
        if (!lies_nothing(k, at[p])) return 0;
    }
    return 1;
}

/* Whether a mailbox may have this capacity and this mode. */
static inline uint8_t may_be_set(uint8_t capacity, uint8_t mode) {
    return capacity >= 1 && capacity <= CSENGADRUL_LARGEST_CAPACITY && mode <= CSENGADRUL_DROPS;
}

static inline int settings_fit(const struct kernel *k) {
    uint8_t wrong = k->slice == 0;
    unsigned m;
    for (m = 0; m < CSENGADRUL_MAILBOXES; m++) wrong |= !may_be_set(k->capacity[m], k->mode[m]);
    return !wrong;
}

static int is_sound(const struct kernel *k) {
    uint8_t at[MEMBERS];
    return settings_fit(k) && k->births[0] == 0 && processes_sound(k, at) && mail_sound(k) && waits_fit(k, at);
}
