/* The board's calls with messages in several buffers, and answers that are known beforehand: every number of buffers,
 * buffers that are no neighbours, 12 by one buffer, drops that make room and drops that would not, every way in which a
 * message gives its buffers back, and states in which the buffers of messages are not as they should be. */
#include "expect.h"

#include <string.h>

#define ENTRIES(list) (sizeof(list) / sizeof *(list))
#define CHAIN CSENGADRUL_OFFSET_CHAIN
#define BIT(b) (1u << (b))

static const uint8_t scattered[] = {3, 4, 9, 17, 18, 25, 30, 31};

/* Counts whether these buffers alone are free, a bit each. */
static void free_are(uint32_t buffers) {
    const uint8_t *bits = state + CSENGADRUL_OFFSET_FREE_BITS;
    uint32_t there = bits[0] | (uint32_t)bits[1] << 8 | (uint32_t)bits[2] << 16 | (uint32_t)bits[3] << 24;
    count(there == buffers, "these buffers are free, and no others");
}

static uint32_t bits_of(const uint8_t *buffers, size_t many) {
    uint32_t bits = 0;
    while (many-- > 0) bits |= BIT(buffers[many]);
    return bits;
}

static void put_length(size_t buffer, uint32_t length) {
    state[CSENGADRUL_OFFSET_LENGTH + 2 * buffer] = (uint8_t)length;
    state[CSENGADRUL_OFFSET_LENGTH + 2 * buffer + 1] = (uint8_t)(length >> 8);
}

static uint32_t length_at(size_t buffer) {
    const uint8_t *at = state + CSENGADRUL_OFFSET_LENGTH + 2 * buffer;
    return at[0] | (uint32_t)at[1] << 8;
}

/* Counts whether a message of this length lies in these buffers, in this order, by the tables of docs/IMAGE.md. */
static void lies_in(const uint8_t *buffers, size_t many, size_t length) {
    size_t i, wrong = 0;
    for (i = 0; i < many; i++) {
        wrong += state[CHAIN + buffers[i]] != buffers[i + 1 < many ? i + 1 : i];
        wrong += length_at(buffers[i]) != (i == 0 ? length : 0);
    }
    count(!wrong, "the message lies in these buffers");
}

/* Counts whether byte i of the message that was written last lies in its buffer i / 512, at i % 512. */
static void bytes_lie_in(const uint8_t *buffers, size_t length) {
    size_t i, wrong = 0;
    for (i = 0; i < length; i++) wrong += store[512 * buffers[i / 512] + i % 512] != message[i];
    count(!wrong, "the bytes lie in these buffers");
}

/* Process 1 of class 2 runs, and these buffers alone are free: mailbox 0 has a message in each other. */
static void all_but(const uint8_t *holes, size_t many) {
    size_t b, at = 0;
    fresh();
    for (b = 0; b < CSENGADRUL_STORE_SIZE; b++) store[b] = (uint8_t)(b + b / 256);
    create(2, 1, 1);
    set(0, 32, 0, CSENGADRUL_DONE, 1);
    set(1, 32, 0, CSENGADRUL_DONE, 1);
    for (b = 0; b < CSENGADRUL_BUFFERS; b++) {
        int is_hole = at < many && holes[at] == b;
        send((uint32_t)is_hole, 10 + b, CSENGADRUL_DONE, 1);
        at += (size_t)is_hole;
    }
    for (at = 0; at < many; at++) fetch(1, 10u + holes[at], 1);
    free_are(bits_of(holes, many));
}

/* A message of this length is taken, read and released, and then all is as it was. */
static void page_of(size_t length, size_t many) {
    static const uint8_t lowest[] = {0, 1, 2, 3, 4, 5, 6, 7};
    uint8_t image[CSENGADRUL_STATE_SIZE];
    fresh();
    create(2, 1, 1);
    memcpy(image, state, sizeof image);
    send(2, length, CSENGADRUL_DONE, 1);
    lies_in(lowest, many, length);
    bytes_lie_in(lowest, length);
    free_are(0xffffffffu << many);
    expect("receive", RECEIVE, 2, CSENGADRUL_DONE, (uint32_t)length, 1);
    expect("listing", LISTING, 0, CSENGADRUL_DONE, 0, 1);
    count(row_is(1, CSENGADRUL_RUNNING, 2, 0, 2, SLICE, 1, (unsigned)length), "the row has the whole length");
    if (length > 0) {
        lay(ROOM, side, length - 1, length - 1);
        expect("read", READ, 0, CSENGADRUL_SHORT_ROOM, (uint32_t)length, 1);
    }
    lay(ROOM, side, length, length);
    memset(room, 0xee, sizeof room);
    expect("read", READ, 0, CSENGADRUL_DONE, (uint32_t)length, 1);
    count(memcmp(room, message, length) == 0, "every byte is as it was sent");
    usual();
    expect("release", RELEASE, 0, CSENGADRUL_DONE, 0, 1);
    count(memcmp(image, state, sizeof image) == 0, "the state is as it was");
}

static void every_number_of_buffers(void) {
    static const struct {
        uint16_t length;
        uint8_t buffers;
    } lengths[] = {{0, 1},    {1, 1},    {511, 1},  {512, 1},  {513, 2},  {1023, 2}, {1024, 2}, {1025, 3}, {1536, 3},
                   {1537, 4}, {2048, 4}, {2049, 5}, {2560, 5}, {2561, 6}, {3072, 6}, {3073, 7}, {3584, 7}, {3585, 8},
                   {4095, 8}, {4096, 8}};
    size_t i;
    for (i = 0; i < ENTRIES(lengths); i++) page_of(lengths[i].length, lengths[i].buffers);
}

/* A page in buffers that are no neighbours, the lowest first, and what lies between them stays. */
static void no_neighbours(void) {
    static const size_t lengths[] = {513, 1024, 1500, 3071, 3584, 3585, 4096};
    size_t i, b, at;
    for (i = 0; i < ENTRIES(lengths); i++) {
        size_t many = (lengths[i] + 511) / 512;
        all_but(scattered, 8);
        send(2, lengths[i], CSENGADRUL_DONE, 1);
        lies_in(scattered, many, lengths[i]);
        bytes_lie_in(scattered, lengths[i]);
        free_are(bits_of(scattered + many, 8 - many));
        fetch(2, lengths[i], 1);
        free_are(bits_of(scattered, 8));
        for (b = 0, at = 0; b < CSENGADRUL_BUFFERS; b++) {
            if (at < 8 && scattered[at] == b) at++;
            else fetch(0, 10 + b, 1);
        }
    }
}

/* With n buffers free, a message that needs n is taken and one that needs another one is not. */
static void short_by_one(void) {
    uint32_t n;
    all_but(scattered, 0);
    send(2, 0, CSENGADRUL_NO_BUFFER, 1);
    send(2, 1, CSENGADRUL_NO_BUFFER, 1);
    send(2, 4096, CSENGADRUL_NO_BUFFER, 1);
    for (n = 1; n <= 8; n++) {
        all_but(scattered + 8 - n, n);
        send(2, 512 * n + 1, n < 8 ? CSENGADRUL_NO_BUFFER : CSENGADRUL_LONG_MESSAGE, 1);
        send(2, 4096, n < 8 ? CSENGADRUL_NO_BUFFER : CSENGADRUL_DONE, 1);
        if (n < 8) send(2, 512 * n, CSENGADRUL_DONE, 1);
        lies_in(scattered + 8 - n, n, 512 * n);
        free_are(0);
        send(2, 0, CSENGADRUL_NO_BUFFER, 1);
    }
}

/* Where buffers are short, 3, 6 and 11 come before 12; and who waits for a message waits on. */
static void order_of_refusals(void) {
    all_but(scattered, 2);
    set(5, 1, 0, CSENGADRUL_DONE, 1);
    send(16, 4097, CSENGADRUL_NO_MAILBOX, 1);
    send(16, 4096, CSENGADRUL_NO_MAILBOX, 1);
    send(6, 4097, CSENGADRUL_LONG_MESSAGE, 1);
    send(6, 4096, CSENGADRUL_NO_BUFFER, 1);
    send(5, 7, CSENGADRUL_DONE, 1);
    send(5, 4097, CSENGADRUL_LONG_MESSAGE, 1);
    send(5, 4096, CSENGADRUL_MAILBOX_FULL, 1);
    expect("receive", RECEIVE, 7, CSENGADRUL_WAITS, 0, 0);
    send(7, 513, CSENGADRUL_NO_BUFFER, 0);
    send(7, 512, CSENGADRUL_DONE, 1);
    expect("read", READ, 0, CSENGADRUL_DONE, 512, 1);
}

/* Mailbox 5 takes two messages and drops: the older one has buffers 2, 5 and 9, the other 20, and none is free. */
static void two_to_drop(void) {
    static const uint8_t holes[] = {2, 5, 9, 20}, queue[] = {2, 20};
    all_but(holes, 4);
    set(5, 2, 1, CSENGADRUL_DONE, 1);
    send(5, 1500, CSENGADRUL_DONE, 1);
    send(5, 7, CSENGADRUL_DONE, 1);
    lies_in(holes, 3, 1500);
    QUEUE_IS(5, queue);
    free_are(0);
}

/* Where the oldest message has too few buffers for the new one, 12 leaves it where it is. */
static void too_few_after_a_drop(void) {
    static const uint8_t queue[] = {2, 20}, later[] = {20, 2};
    two_to_drop();
    send(5, 1537, CSENGADRUL_NO_BUFFER, 1);
    send(5, 4096, CSENGADRUL_NO_BUFFER, 1);
    send(5, 4097, CSENGADRUL_LONG_MESSAGE, 1);
    QUEUE_IS(5, queue);
    send_dropping(5, 1536, BIT(2) | BIT(5) | BIT(9), 1);
    QUEUE_IS(5, later);
    send(5, 513, CSENGADRUL_NO_BUFFER, 1); /* both together would have enough */
    QUEUE_IS(5, later);
    fetch(5, 7, 1);
    fetch(5, 1536, 1);
    expect("nothing else is left", RECEIVE, 5, CSENGADRUL_WAITS, 0, 0);
}

/* All buffers of a dropped message are free, and the new one has the lowest of all that are. */
static void drop_of_three(void) {
    static const uint8_t two[] = {5, 9, 20}, queue[] = {2, 5};
    two_to_drop();
    send_dropping(5, 3, BIT(2) | BIT(5) | BIT(9), 1);
    free_are(BIT(5) | BIT(9));
    send_dropping(5, 1025, BIT(20), 1);
    lies_in(two, 3, 1025);
    QUEUE_IS(5, queue);
    free_are(0);
    send(6, 0, CSENGADRUL_NO_BUFFER, 1);
    send_dropping(5, 0, BIT(2), 1);
    fetch(5, 1025, 1);
    fetch(5, 0, 1);
    free_are(BIT(2) | BIT(5) | BIT(9) | BIT(20));
}

/* Free ones below the dropped message's and between them. */
static void drop_among_free_ones(void) {
    static const uint8_t holes[] = {2, 5, 9}, page[] = {0, 1, 2, 3, 5}, queue[] = {0};
    all_but(holes, 3);
    set(5, 1, 1, CSENGADRUL_DONE, 1);
    send(5, 1500, CSENGADRUL_DONE, 1);
    fetch(0, 10, 1);
    fetch(0, 11, 1);
    fetch(0, 13, 1);
    send(5, 3073, CSENGADRUL_NO_BUFFER, 1);
    send_dropping(5, 2500, BIT(2) | BIT(5) | BIT(9), 1);
    lies_in(page, 5, 2500);
    bytes_lie_in(page, 2500);
    QUEUE_IS(5, queue);
    free_are(BIT(9));
    fetch(5, 2500, 1);
}

/* Only a full mailbox drops, and only one of its own messages. */
static void no_drop(void) {
    static const uint8_t holes[] = {6, 7, 8}, queue[] = {6};
    all_but(holes, 3);
    set(5, 2, 1, CSENGADRUL_DONE, 1);
    set(6, 1, 1, CSENGADRUL_DONE, 1);
    send(5, 1500, CSENGADRUL_DONE, 1);
    send(5, 1, CSENGADRUL_NO_BUFFER, 1);
    send(6, 1, CSENGADRUL_NO_BUFFER, 1);
    QUEUE_IS(5, queue);
    fetch(5, 1500, 1);
    expect("receive", RECEIVE, 6, CSENGADRUL_WAITS, 0, 0);
    send(6, 1536, CSENGADRUL_DONE, 1);
    send(6, 0, CSENGADRUL_NO_BUFFER, 1);
}

/* Process 1 has a page of eight buffers in hand, and no buffer is free. */
static void page_in_hand(void) {
    all_but(scattered, 8);
    send(2, 4096, CSENGADRUL_DONE, 1);
    expect("receive", RECEIVE, 2, CSENGADRUL_DONE, 4096, 1);
    lies_in(scattered, 8, 4096);
    free_are(0);
}

/* All of them are free again, and take another page. */
static void given_back(uint32_t running) {
    free_are(bits_of(scattered, 8));
    send(3, 4096, CSENGADRUL_DONE, running);
    lies_in(scattered, 8, 4096);
    free_are(0);
}

static void every_way_back(void) {
    page_in_hand();
    expect("release", RELEASE, 0, CSENGADRUL_DONE, 0, 1);
    given_back(1);
    page_in_hand();
    expect("end", END, 0, CSENGADRUL_DONE, 0, 0);
    given_back(0);
    page_in_hand();
    stop(1, 0);
    given_back(0);
    page_in_hand();
    create(3, 2, 2);
    stop(1, 2);
    given_back(2);
    page_in_hand();
    expect("wait", WAIT, 4, CSENGADRUL_WAITS, 0, 0);
    stop(1, 0);
    given_back(0);
}

/* Who waited has the whole page in hand. With two pages in two hands each gives back its own. */
static void pages_in_two_hands(void) {
    static const uint8_t first[] = {0, 1, 2, 3, 4, 5, 6, 7}, second[] = {8, 9, 10};
    fresh();
    create(2, 1, 1);
    create(3, 2, 2);
    expect("receive", RECEIVE, 9, CSENGADRUL_WAITS, 0, 1);
    expect("receive", RECEIVE, 9, CSENGADRUL_WAITS, 0, 0);
    send(9, 4096, CSENGADRUL_DONE, 2);
    send(9, 1200, CSENGADRUL_DONE, 2);
    expect("listing", LISTING, 0, CSENGADRUL_DONE, 0, 2);
    count(row_is(2, CSENGADRUL_RUNNING, 3, 0, 3, SLICE, 1, 4096), "the row of the first waiter");
    count(row_is(1, CSENGADRUL_READY, 2, 0, 2, SLICE, 1, 1200), "the row of the second waiter");
    expect("7", RECEIVE, 8, CSENGADRUL_HAND_FULL, 0, 2);
    write_message(4096, 9 + 4096);
    expect("read", READ, 0, CSENGADRUL_DONE, 4096, 2);
    count(memcmp(room, message, 4096) == 0, "it is the first page");
    expect("release", RELEASE, 0, CSENGADRUL_DONE, 0, 2);
    free_are(0xffffffffu & ~bits_of(second, 3));
    lies_in(second, 3, 1200);
    send(9, 4096, CSENGADRUL_DONE, 2);
    lies_in(first, 8, 4096);
    stop(1, 2);
    free_are(0xffffff00u);
    fetch(9, 4096, 2);
    free_are(0xffffffffu);
}

/* Four pages take all 32 buffers. */
static void four_pages(void) {
    uint32_t m;
    fresh();
    create(2, 1, 1);
    for (m = 0; m < 4; m++) send(m, 4096 - m, CSENGADRUL_DONE, 1);
    free_are(0);
    for (m = 0; m < 5; m++) send(m, m, CSENGADRUL_NO_BUFFER, 1);
    for (m = 4; m-- > 0;) fetch(m, 4096 - m, 1);
    free_are(0xffffffffu);
}

/* Buffers 0, 1 and 2 have a page of 1,500 bytes, which is queued in mailbox 3, and 5 the message behind it; 3 and 4
 * have a page of 600 bytes, which is in the hand of process 1; the others are free. */
static void three_messages(void) {
    fresh();
    create(2, 1, 1);
    send(3, 1500, CSENGADRUL_DONE, 1);
    send(4, 600, CSENGADRUL_DONE, 1);
    expect("receive", RECEIVE, 4, CSENGADRUL_DONE, 600, 1);
    send(3, 5, CSENGADRUL_DONE, 1);
}

/* No link can be another one, and no free bit. */
static void damaged_links(void) {
    uint32_t b, to;
    three_messages();
    for (b = 0; b < CSENGADRUL_BUFFERS; b++) {
        size_t bits = CSENGADRUL_OFFSET_FREE_BITS + b / 8;
        for (to = 0; to < 256; to++)
            if (state[CHAIN + b] != to) with_byte(CHAIN + b, (uint8_t)to, CSENGADRUL_NOT_SOUND, 0);
        with_byte(bits, (uint8_t)(state[bits] ^ BIT(b % 8)), CSENGADRUL_NOT_SOUND, 0);
    }
}

/* A message has as many buffers as its length needs, and a buffer that is no message's first has no length. */
static void damaged_lengths(void) {
    static const uint32_t lengths[] = {0,    1,    256,  511,  512,  513,  768,  1024, 1025, 1280, 1536, 1537, 2048,
                                       2049, 3584, 3585, 4096, 4097, 4608, 8192, 32768, 65024, 65535};
    uint32_t b, was;
    size_t i;
    three_messages();
    for (b = 0; b < CSENGADRUL_BUFFERS; b++)
        for (i = 0, was = length_at(b); i < ENTRIES(lengths); i++) {
            uint32_t least = b == 0 ? 1025 : b == 3 ? 513 : 0, most = b == 0 ? 1536 : b == 3 ? 1024 : b == 5 ? 512 : 0;
            int good = lengths[i] >= least && lengths[i] <= most;
            put_length(b, lengths[i]);
            expect("another length", LISTING, 0, good ? CSENGADRUL_DONE : CSENGADRUL_NOT_SOUND, 0, good);
            put_length(b, was);
        }
}

static void put_link(size_t buffer, size_t next) {
    state[CHAIN + buffer] = (uint8_t)next;
}

static void turn_free(size_t buffer) {
    state[CSENGADRUL_OFFSET_FREE_BITS + buffer / 8] ^= (uint8_t)BIT(buffer % 8);
}

/* Counts whether the state is refused by calls of each kind, and begins again with the sound one. */
static void refused(const char *what) {
    static const enum call calls[] = {LISTING, TICK, SEND, RECEIVE, READ, RELEASE, STOP, END, WHY};
    size_t i;
    for (i = 0; i < ENTRIES(calls); i++) expect(what, calls[i], 1, CSENGADRUL_NOT_SOUND, 0, 0);
    three_messages();
}

/* Messages that meet each other, or themselves. */
static void damaged_meetings(void) {
    three_messages();
    put_link(3, 2);
    turn_free(4);
    refused("two messages share their last buffer");
    put_link(4, 1);
    put_length(3, 1100);
    refused("a message leads into the middle of another");
    put_link(4, 5);
    put_length(3, 1100);
    refused("a message leads to the first of another");
    put_link(2, 0);
    put_length(0, 2048);
    refused("a message leads to its own first");
    put_link(2, 1);
    put_length(0, 4096);
    refused("a message goes round in itself");
    state[CSENGADRUL_OFFSET_HAND + 1] = 1;
    put_length(3, 0);
    put_length(1, 600);
    put_link(3, 3);
    turn_free(3);
    turn_free(4);
    refused("a message that begins in the middle of another");
    state[CSENGADRUL_OFFSET_HAND + 1] = 0;
    put_length(3, 0);
    put_link(3, 3);
    turn_free(3);
    turn_free(4);
    refused("a message both in a mailbox and in a hand");
}

/* Messages with other buffers than theirs, and buffers that no message has. */
static void damaged_numbers(void) {
    three_messages();
    put_link(2, 6);
    turn_free(6);
    refused("a message has one too many");
    put_link(1, 1);
    turn_free(2);
    refused("a message has one too few");
    put_link(2, 6);
    put_length(0, 2048);
    refused("a message leads to a free one");
    put_link(2, 32);
    put_length(0, 2048);
    refused("a message leads past the last buffer");
    put_link(6, 7);
    turn_free(6);
    turn_free(7);
    refused("a chain that no message has");
    put_link(6, 7);
    put_link(7, 6);
    turn_free(6);
    turn_free(7);
    refused("a circle that no message has");
}

/* A message of nine buffers, whose length needs so many, is too long. */
static void damaged_longest(void) {
    size_t b;
    three_messages();
    for (b = 6; b < 14; b++) turn_free(b);
    for (b = 5; b < 13; b++) put_link(b, b + 1);
    put_length(5, 4097);
    refused("a message of nine buffers");
    for (b = 6; b < 13; b++) turn_free(b);
    for (b = 5; b < 12; b++) put_link(b, b + 1);
    put_length(5, 4096);
    expect("a message of eight", LISTING, 0, CSENGADRUL_DONE, 0, 1);
}

/* Any order of a message's buffers is sound, and a read goes by it. */
static void another_order(void) {
    three_messages();
    put_link(0, 4);
    put_link(4, 2);
    put_link(3, 1);
    put_link(1, 1);
    expect("read", READ, 0, CSENGADRUL_DONE, 600, 1);
    count(memcmp(room, store + 512 * 3, 512) == 0, "the first buffer first");
    count(memcmp(room + 512, store + 512, 88) == 0, "then the one that it leads to");
    expect("release", RELEASE, 0, CSENGADRUL_DONE, 0, 1);
    free_are(0xffffffffu & ~(BIT(0) | BIT(2) | BIT(4) | BIT(5)));
    expect("receive", RECEIVE, 3, CSENGADRUL_DONE, 1500, 1);
    expect("read", READ, 0, CSENGADRUL_DONE, 1500, 1);
    count(memcmp(room, store, 512) == 0, "the first buffer first");
    count(memcmp(room + 512, store + 512 * 4, 512) == 0, "then the one that it leads to");
    count(memcmp(room + 1024, store + 512 * 2, 476) == 0, "and the last");
    expect("release", RELEASE, 0, CSENGADRUL_DONE, 0, 1);
    fetch(3, 5, 1);
    free_are(0xffffffffu);
}

void pages(void) {
    every_number_of_buffers();
    no_neighbours();
    short_by_one();
    order_of_refusals();
    too_few_after_a_drop();
    drop_of_three();
    drop_among_free_ones();
    no_drop();
    every_way_back();
    pages_in_two_hands();
    four_pages();
    damaged_links();
    damaged_lengths();
    damaged_meetings();
    damaged_numbers();
    damaged_longest();
    another_order();
}
