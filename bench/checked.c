/* The decision as a C programmer may write it: the two tables of links are each other's inverse, the
 * rings are walked without asking that again, each message's buffers are taken out of those that are not
 * free, and each test leaves at the first thing that is wrong. */
#include "calls.h"

/* Whether the node behind each node has that node before it: then the links are rings. */
static int are_rings(const uint8_t *next, const uint8_t *before, unsigned nodes) {
    unsigned i;
    for (i = 0; i < nodes; i++)
        if (next[i] >= nodes || before[next[i]] != i) return 0;
    return 1;
}

#define NOWHERE 255

/* Where each of the 32 members stands: a head, or NOWHERE. Refuses a ring with two heads, and one with none. */
static int find_places(const uint8_t *next, unsigned heads, uint8_t place[32]) {
    unsigned i, head, node;
    memset(place, NOWHERE, 32);
    for (head = 32; head < 32 + heads; head++)
        for (node = next[head]; node != head; node = next[node]) {
            if (node >= 32) return 0;
            place[node] = (uint8_t)head;
        }
    for (i = 0; i < 32; i++)
        if (place[i] == NOWHERE && next[i] != i) return 0;
    return 1;
}

static int waits_at_mailbox(uint8_t place) {
    return place >= MAILBOX_HEAD && place < SEMAPHORE_HEAD;
}

/* Process p by its place: class, ticks, unused bit. */
static int block_sound(const struct kernel *k, unsigned p, uint8_t place) {
    int used = place != NOWHERE || (p == k->running && p != 0);
    if (used == (int)(k->unused >> p & 1) && p != 0) return 0;
    if (!used) return k->class_of[p] == 0 && k->ticks[p] == 0;
    if (k->class_of[p] >= CSENGADRUL_CLASSES) return 0;
    if (place == NOWHERE) return k->ticks[p] >= 1 && k->ticks[p] <= k->slice;
    if (p == 0 || p == k->running) return 0;
    if (place >= MAILBOX_HEAD) return k->ticks[p] == k->slice;
    return k->ticks[p] >= 1 && k->ticks[p] <= k->slice && place == CLASS_HEAD + k->class_of[p];
}

static int processes_sound(const struct kernel *k, uint8_t place[32]) {
    unsigned p, c;
    uint32_t ready = 0;
    if (k->births[0] || k->running >= CSENGADRUL_PROCESSES || k->unused & 1) return 0;
    if (!are_rings(k->next, k->before, PROCESS_NODES) || !find_places(k->next, PROCESS_NODES - 32, place)) return 0;
    for (p = 0; p < CSENGADRUL_PROCESSES; p++)
        if (!block_sound(k, p, place[p])) return 0;
    for (c = 0; c < CSENGADRUL_CLASSES; c++)
        if (k->next[CLASS_HEAD + c] != CLASS_HEAD + c) ready |= 1u << c;
    if (k->ready != ready) return 0;
    return k->running ? ready >> k->class_of[k->running] >> 1 == 0 : ready == 0;
}

/* The first buffers of the messages in hands; 0 in *good if two hold the same, or one that should hold none does. */
static uint32_t in_hands(const struct kernel *k, const uint8_t place[32], int *good) {
    uint32_t held = 0;
    unsigned p;
    for (p = 0; p < CSENGADRUL_PROCESSES; p++) {
        uint8_t b = k->hand[p];
        if (!(k->full >> p & 1)) {
            if (b != 0) *good = 0;
            continue;
        }
        if (p == 0 || k->unused >> p & 1 || waits_at_mailbox(place[p]) || b >= CSENGADRUL_BUFFERS || held >> b & 1) {
            *good = 0;
            return 0;
        }
        held |= 1u << b;
    }
    return held;
}

/* Takes the buffers of the message that begins in b, as many as its length needs, out of those not yet reached. */
static int chain_sound(const struct kernel *k, unsigned b, uint32_t *unreached) {
    unsigned more = buffers_for(k->length[b]);
    uint32_t left = *unreached;
    for (;;) {
        if (b >= CSENGADRUL_BUFFERS || !(left >> b & 1)) return 0;
        left &= ~(1u << b);
        if (--more == 0) break;
        b = k->chain[b];
    }
    *unreached = left;
    return k->chain[b] == b;
}

static int mail_sound(const struct kernel *k, const uint8_t place[32]) {
    uint8_t box[32], queued[CSENGADRUL_MAILBOXES] = {0};
    uint32_t held, unreached = ~k->free;
    unsigned b, m;
    int good = 1;
    if (!are_rings(k->box_next, k->box_before, BUFFER_NODES)) return 0;
    if (!find_places(k->box_next, CSENGADRUL_MAILBOXES, box)) return 0;
    held = in_hands(k, place, &good);
    if (!good) return 0;
    for (b = 0; b < CSENGADRUL_BUFFERS; b++) {
        int is_queued = box[b] != NOWHERE, is_held = held >> b & 1;
        if (is_queued && is_held) return 0;
        if (k->length[b] > (is_queued || is_held ? CSENGADRUL_MESSAGE_SIZE : 0)) return 0;
        if (k->free >> b & 1 && k->chain[b] != b) return 0;
        if (is_queued && ++queued[box[b] - BOX_HEAD] > k->capacity[box[b] - BOX_HEAD]) return 0;
        if ((is_queued || is_held) && !chain_sound(k, b, &unreached)) return 0;
    }
    if (unreached) return 0;
    for (m = 0; m < CSENGADRUL_MAILBOXES; m++)
        if (queued[m] && k->next[MAILBOX_HEAD + m] != MAILBOX_HEAD + m) return 0;
    return 1;
}

static int counts_sound(const struct kernel *k) {
    unsigned s;
    for (s = 0; s < CSENGADRUL_SEMAPHORES; s++)
        if (k->count[s] && k->next[SEMAPHORE_HEAD + s] != SEMAPHORE_HEAD + s) return 0;
    return 1;
}

static int settings_sound(const struct kernel *k) {
    unsigned m;
    if (k->slice == 0) return 0;
    for (m = 0; m < CSENGADRUL_MAILBOXES; m++)
        if (k->capacity[m] < 1 || k->capacity[m] > CSENGADRUL_LARGEST_CAPACITY || k->mode[m] > CSENGADRUL_DROPS) return 0;
    return 1;
}

static int is_sound(const struct kernel *k) {
    uint8_t place[32];
    return settings_sound(k) && processes_sound(k, place) && mail_sound(k, place) && counts_sound(k);
}
