/* Areas to lend to the board's calls, laid so that no step outside them goes unseen.
 *
 * Each kind of area has a page of its own between two that nobody may touch. An
 * area lies against one of the two, so a read or write past that end stops the
 * program; past its other end are guard bytes, which are looked at after each call. */
#ifndef LEND_H
#define LEND_H

#include "csengadrul.h"

enum call {
    FRESH,
    CREATE,
    STOP,
    END,
    YIELD,
    CLASS,
    TICK,
    SEND,
    RECEIVE,
    READ,
    RELEASE,
    SIGNAL,
    WAIT,
    LISTING,
    WHY,
    FRESH_SLICE,
    MAILBOX
};

/* The numbers that a call takes besides areas. */
typedef struct {
    uint32_t number;   /* a class, name of a process, mailbox, semaphore or slice */
    uint32_t capacity; /* what MAILBOX gives the mailbox; no other call takes these two */
    uint32_t mode;
} numbers;

enum kind { STATE, STORE, MESSAGE, ROOM, ROWS, KINDS };

enum lies {
    AT_THE_END,   /* its last byte is the page's last */
    AT_THE_START, /* its first byte is the page's first */
    NULL_POINTER, /* given as a null pointer */
    OUT_OF_REACH  /* given as a pointer that nobody may follow */
};

typedef struct {
    enum lies lies;
    size_t told;      /* the length that the call is told; rows count as rows */
    size_t bytes;     /* how many bytes are there */
    uint8_t *content; /* what they are: copied to the page before the call, and back after it */
} area;

/* What came of a call. `changed` and `escaped` have bit k on for kind k. */
typedef struct {
    csengadrul_answer answer;
    csengadrul_reason reason; /* after WHY: all six numbers, of which the first three are the answer's */
    unsigned changed; /* areas whose content is another now */
    unsigned escaped; /* areas with a guard byte that is another now */
} outcome;

/* Maps the pages. Returns 0 where the machine has none. */
int lend_begin(void);

/* Makes one call with the numbers and the areas that it takes. */
outcome lend(enum call call, numbers given, area areas[KINDS]);

/* The most stack that a call has used so far, in bytes. 0 unless compiled with WATCH_STACK, which no
 * memory checker likes: the stack is painted before each call and looked at after it. */
size_t lend_deepest(void);

#endif
