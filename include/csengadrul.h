/*
 * Csengadrul for C firmware: the calls of the kernel on numbers and byte areas.
 *
 * The whole kernel state lies in one area of CSENGADRUL_STATE_SIZE bytes that
 * the firmware keeps, the state area; docs/IMAGE.md says what stands at which
 * byte. Message bytes lie in a second area of CSENGADRUL_STORE_SIZE bytes, the
 * store. Both are lent to each call that needs them, and a call touches no other
 * memory than the areas lent to it and its own stack.
 *
 * The store is CSENGADRUL_BUFFERS buffers. A message has as many of them as its bytes
 * need, one at least: its byte i lies in its buffer number i / CSENGADRUL_BUFFER_SIZE,
 * at i % CSENGADRUL_BUFFER_SIZE. Its buffers need not be neighbours.
 *
 * Every area is a pointer and a length.
 *  - The areas of one call do not overlap, and each has as many bytes as its
 *    length says. Only the firmware can see to this.
 *  - An area of length 0 may be given as a null pointer.
 *  - No area needs any alignment; the table of rows needs that of
 *    csengadrul_row.
 *  - There are no variables besides the areas. Calls on different areas do not
 *    touch one another; a call must not begin while another one on the same
 *    state area or store is under way, by an interrupt or on another processor.
 *
 * Every call answers, whatever the numbers are and whatever the areas hold.
 * A state area that is not CSENGADRUL_STATE_SIZE bytes long, or that holds no
 * image of a sound state, is refused with CSENGADRUL_NOT_SOUND, and so is a
 * damaged one at the next call; the two fresh starts alone look at the length only.
 * A refusal, which is every code but CSENGADRUL_DONE and CSENGADRUL_WAITS, leaves
 * every byte of every area as it was. Where several refusals hold at once the
 * first one in the order that stands with the call is given.
 *
 * A process has a number and a name. The name is the number plus
 * CSENGADRUL_BIRTHS times its birth count, which goes up by 1 whenever the number
 * becomes a process, from 255 back to 0, and stays when the number is unused
 * again. csengadrul_create answers the name; the calls that take a process take
 * it, and refuse a name of an earlier process of that number. `running`, rows and
 * reasons have numbers. After 256 births of its number a name returns:
 * docs/BOARD.md says what that means for whoever keeps names.
 *
 * A mailbox has a capacity, as many messages as may be queued in it, and a mode,
 * which says what becomes of a send when so many are: it is refused, or the oldest
 * message is dropped for the new one. After a fresh start every mailbox has a
 * capacity of 8 and refuses; csengadrul_mailbox sets both anew, for one that has
 * neither messages nor waiters.
 *
 * "The caller" is the running process. A message "in hand" is the one that a process
 * received and has not released; it keeps its buffers until then. "Choose" means: the
 * first of the highest class with anyone ready runs, else process 0. "Made ready"
 * means: it joins the rear of its class with a full slice, and runs at once if its
 * class is above the running one's or 0 runs; the process that ran then goes to the
 * front of its class with the ticks it has left.
 */
#ifndef CSENGADRUL_H
#define CSENGADRUL_H

#include <stddef.h>
#include <stdint.h>

#ifdef __cplusplus
extern "C" {
#endif

/* The version, major and minor: the minor goes up where something is added, the
 * major where the image changes or an answer does, so that a state area kept from
 * another major version is not to be lent. */
#define CSENGADRUL_VERSION_MAJOR 5
#define CSENGADRUL_VERSION_MINOR 0
#define CSENGADRUL_VERSION (100 * CSENGADRUL_VERSION_MAJOR + CSENGADRUL_VERSION_MINOR)

/* Sizes. */
#define CSENGADRUL_STATE_SIZE 540      /* bytes of the state area */
#define CSENGADRUL_STORE_SIZE 16384    /* bytes of the store */
#define CSENGADRUL_MESSAGE_SIZE 4096   /* bytes of the longest message */
#define CSENGADRUL_PROCESSES 32        /* 0 to 31; 0 is the null process */
#define CSENGADRUL_CLASSES 5           /* 0 to 4; 4 is the highest */
#define CSENGADRUL_MAILBOXES 16        /* 0 to 15 */
#define CSENGADRUL_USUAL_CAPACITY 8    /* messages queued in a mailbox at most, where nothing else is set */
#define CSENGADRUL_LARGEST_CAPACITY 32 /* the largest capacity that may be set; the smallest is 1 */
#define CSENGADRUL_BUFFERS 32          /* 0 to 31; buffer b begins at byte 512 b of the store */
#define CSENGADRUL_BUFFER_SIZE 512     /* bytes of a buffer */
#define CSENGADRUL_MESSAGE_BUFFERS 8   /* buffers of the longest message */
#define CSENGADRUL_SEMAPHORES 16       /* 0 to 15 */
#define CSENGADRUL_COUNT_LIMIT 65535   /* the highest count of a semaphore */
#define CSENGADRUL_USUAL_SLICE 5       /* ticks of a full slice where none is named */
#define CSENGADRUL_LONGEST_SLICE 255   /* ticks of the longest one; the shortest has 1 */
#define CSENGADRUL_BIRTHS 256          /* birth counts, 0 to 255; after so many births a name returns */

/* The number of the process that has this name; that of process 0 is 0, and so is its name. */
#define CSENGADRUL_NUMBER(name) ((name) % CSENGADRUL_BIRTHS)

/* Where the fields of docs/IMAGE.md begin in the state area, for whoever looks at one. */
#define CSENGADRUL_OFFSET_RUNNING 0          /* the running process */
#define CSENGADRUL_OFFSET_CLASS 1            /* class of each process */
#define CSENGADRUL_OFFSET_TICKS 33           /* ticks left of each process */
#define CSENGADRUL_OFFSET_PROCESS_NEXT 65    /* process queues: the node after each node */
#define CSENGADRUL_OFFSET_PROCESS_BEFORE 134 /* process queues: the node before each node */
#define CSENGADRUL_OFFSET_READY_BITS 203     /* classes with someone ready */
#define CSENGADRUL_OFFSET_UNUSED_BITS 207    /* unused processes */
#define CSENGADRUL_OFFSET_MESSAGE_NEXT 211   /* mailboxes: the node after each node */
#define CSENGADRUL_OFFSET_MESSAGE_BEFORE 259 /* mailboxes: the node before each node */
#define CSENGADRUL_OFFSET_HAND 307           /* the first buffer of the message in the hand of each process */
#define CSENGADRUL_OFFSET_FULL_BITS 339      /* processes with a full hand */
#define CSENGADRUL_OFFSET_LENGTH 343         /* length of the message that begins in each buffer, two bytes */
#define CSENGADRUL_OFFSET_FREE_BITS 407      /* free buffers */
#define CSENGADRUL_OFFSET_CHAIN 411          /* the next buffer of its message; a last or free one: itself */
#define CSENGADRUL_OFFSET_COUNT 443          /* count of each semaphore, two bytes */
#define CSENGADRUL_OFFSET_BIRTHS 475         /* birth count of each number */
#define CSENGADRUL_OFFSET_SLICE 507          /* ticks of a full slice */
#define CSENGADRUL_OFFSET_CAPACITY 508       /* capacity of each mailbox */
#define CSENGADRUL_OFFSET_MODE 524           /* mode of each mailbox */

/* Codes of an answer. */
enum {
    CSENGADRUL_DONE = 0,           /* done */
    CSENGADRUL_NO_PROCESS = 1,     /* the name's number is 0, over 31 or unused, or has another birth count */
    CSENGADRUL_NO_CLASS = 2,       /* the class is over 4 */
    CSENGADRUL_NO_MAILBOX = 3,     /* the mailbox is over 15 */
    CSENGADRUL_NO_SEMAPHORE = 4,   /* the semaphore is over 15 */
    CSENGADRUL_NO_CALLER = 5,      /* only a process may call this, and process 0 runs */
    CSENGADRUL_LONG_MESSAGE = 6,   /* the message is over 4,096 bytes */
    CSENGADRUL_HAND_FULL = 7,      /* the caller has a message in hand already */
    CSENGADRUL_HAND_EMPTY = 8,     /* the caller has no message in hand */
    CSENGADRUL_SHORT_ROOM = 9,     /* the room or the table is too short; number: the length needed */
    CSENGADRUL_ALL_PROCESSES = 10, /* no process number is unused */
    CSENGADRUL_MAILBOX_FULL = 11,  /* the mailbox holds its capacity, and refuses when full */
    CSENGADRUL_NO_BUFFER = 12,     /* fewer buffers are free than the message needs */
    CSENGADRUL_COUNT_FULL = 13,    /* the semaphore counts 65,535 */
    CSENGADRUL_NOT_SOUND = 14,     /* the state area holds no sound state; number and running are 0 */
    CSENGADRUL_OTHER_STORE = 15,   /* the store is not 16,384 bytes long */
    CSENGADRUL_NO_SLICE = 16,      /* the slice is 0 or over 255 */
    CSENGADRUL_NO_SIZE = 17,       /* the capacity is 0 or over 32, or the mode over 1 */
    CSENGADRUL_MAILBOX_BUSY = 18,  /* the mailbox has messages or waiters */
    CSENGADRUL_WAITS = 32          /* done, and the caller waits now */
};

/* An answer. `number` is 0 where a call does not say what it is. `running` is the
 * number of the process that runs after the call, which is also the byte at
 * CSENGADRUL_OFFSET_RUNNING; with CSENGADRUL_NOT_SOUND it is 0, and so it is in
 * every answer of a fresh start. */
typedef struct {
    uint32_t code;
    uint32_t number;
    uint32_t running;
} csengadrul_answer;

/* Writes the fresh kernel: 0 runs, every other process is unused, all queues and
 * mailboxes are empty, all counts 0, birth counts too, every mailbox has a capacity
 * of 8 and refuses when full, and a full slice has 5 ticks.
 * Answers 0 0 0. Refuses: 14 (the length only; what the area holds is not read).
 * State: the fresh image, whatever was there before. */
csengadrul_answer csengadrul_fresh(uint8_t *state, size_t state_length);

/* The same with a full slice of this many ticks, 1 to 255. No later call changes
 * it; only another fresh start does.
 * Answers 0 0 0. Refuses: 14 (the length only; what the area holds is not read), 16.
 * State: the fresh image with this slice, whatever was there before. */
csengadrul_answer csengadrul_fresh_slice(uint8_t *state, size_t state_length, uint32_t slice);

/* The lowest unused number becomes a process of this class and is made ready; its
 * birth count goes up by 1, from 255 back to 0. Number: the name of the new process.
 * Refuses: 14, 2, 10.
 * State: the next image. */
csengadrul_answer csengadrul_create(uint8_t *state, size_t state_length, uint32_t process_class);

/* The process of this name leaves its place, every buffer of the message in its hand
 * becomes free, its number unused; choose if it ran. Refuses: 14, 1 for a name whose
 * number is 0, over 31 or unused, or that has another birth count than its number.
 * State: the next image. */
csengadrul_answer csengadrul_stop(uint8_t *state, size_t state_length, uint32_t name);

/* Does to the caller what csengadrul_stop does. Refuses: 14, 5.
 * State: the next image. */
csengadrul_answer csengadrul_end(uint8_t *state, size_t state_length);

/* The caller joins the rear of its class with a full slice; choose.
 * Refuses: 14, 5.
 * State: the next image. */
csengadrul_answer csengadrul_yield(uint8_t *state, size_t state_length);

/* The caller changes to this class: it joins the rear there with a full slice;
 * choose. With its own class nothing changes. Refuses: 14, 5, 2.
 * State: the next image. */
csengadrul_answer csengadrul_class(uint8_t *state, size_t state_length, uint32_t process_class);

/* The timer: the caller has one tick less; at none left, as csengadrul_yield.
 * While 0 runs nothing changes, and that is no refusal. Refuses: 14.
 * State: the next image. */
csengadrul_answer csengadrul_tick(uint8_t *state, size_t state_length);

/* Modes: what a mailbox that holds its capacity does when a message is sent to it. */
enum {
    CSENGADRUL_REFUSES = 0, /* the send is refused with CSENGADRUL_MAILBOX_FULL */
    CSENGADRUL_DROPS = 1    /* its oldest message is dropped, and the new one is queued */
};

/* The mailbox gets this capacity, 1 to 32, and this mode, 0 or 1; it must have neither
 * messages nor waiters, even where nothing would change. Both stay until the next call
 * of this for the mailbox, or the next fresh start. May come while 0 runs.
 * Refuses: 14, 3, 17, 18.
 * State: the next image. */
csengadrul_answer csengadrul_mailbox(uint8_t *state, size_t state_length, uint32_t mailbox, uint32_t capacity,
                                     uint32_t mode);

/* The lowest free buffers take the message, as many as it needs, its first bytes in the
 * lowest. If someone waits at the mailbox, the first waiter gets it in hand and is made
 * ready; else it is queued there last.
 * A mailbox that holds its capacity refuses with 11; but if its mode is to drop, its
 * oldest message is lost first, that one and no other, and its buffers are free when
 * they are counted and the lowest are looked for. Such a send is never refused with 11,
 * and with 12 where they are too few even so: then the oldest message stays. A mailbox
 * that does not hold its capacity drops nothing, even where too few buffers are free,
 * nor does a refused send.
 * Refuses: 14, 15, 3, 6, 11, 12.
 * State: the next image. Store: the message's own bytes, from the start of each buffer
 * that took some; every other byte stays. Message: only read, and not where it is over
 * 4,096 bytes. */
csengadrul_answer csengadrul_send(uint8_t *state, size_t state_length, uint8_t *store, size_t store_length,
                                  uint32_t mailbox, const uint8_t *message, size_t message_length);

/* The first message of the mailbox goes into the caller's hand. Number: its
 * length. If the mailbox is empty the caller joins the rear of its waiters;
 * choose; code 32, number 0. A process that waited has the message in hand when
 * it runs again, and does not call this for it again. Refuses: 14, 5, 3, 7.
 * State: the next image. */
csengadrul_answer csengadrul_receive(uint8_t *state, size_t state_length, uint32_t mailbox);

/* Copies the message in the caller's hand, from all its buffers, to the start of the
 * room. Number: its length. Refuses: 14, 15, 5, 8, 9 (number: the message's length).
 * State and store: only read. Room: the message's bytes at its start; the rest
 * stays, and is not touched. */
csengadrul_answer csengadrul_read(const uint8_t *state, size_t state_length, const uint8_t *store, size_t store_length,
                                  uint8_t *room, size_t room_length);

/* Every buffer of the message in the caller's hand becomes free. Refuses: 14, 5, 8.
 * State: the next image. */
csengadrul_answer csengadrul_release(uint8_t *state, size_t state_length);

/* The first waiter at the semaphore is made ready; with no waiter its count goes
 * up by 1. Refuses: 14, 4, 13.
 * State: the next image. */
csengadrul_answer csengadrul_signal(uint8_t *state, size_t state_length, uint32_t semaphore);

/* The semaphore's count goes down by 1. At 0 the caller joins the rear of its
 * waiters instead; choose; code 32. A process that waited has been signalled when
 * it runs again, and does not call this for it again. Refuses: 14, 5, 4.
 * State: the next image. */
csengadrul_answer csengadrul_wait(uint8_t *state, size_t state_length, uint32_t semaphore);

/* Where a process stands, in its row of the listing. */
enum {
    CSENGADRUL_UNUSED = 0,
    CSENGADRUL_RUNNING = 1,
    CSENGADRUL_READY = 2,
    CSENGADRUL_AT_MAILBOX = 3,
    CSENGADRUL_AT_SEMAPHORE = 4,
    CSENGADRUL_STANDING_BY = 5 /* process 0 while another one runs */
};

/* A row of the listing. Process 0 has zeros after its place. */
typedef struct {
    uint8_t place;    /* one of the six above */
    uint8_t which;    /* the class, mailbox or semaphore of that queue; 0 if unused, the class if running */
    uint8_t position; /* the place in that queue, from 0; else 0 */
    uint8_t class_;   /* its class */
    uint8_t ticks;    /* its ticks left */
    uint8_t full;     /* 1 if its hand holds a message, else 0 */
    uint16_t length;  /* the length of the message in its hand; 0 for an empty hand */
} csengadrul_row;

/* Writes one row for each process, row i for process i.
 * Answers 0 0 and the running process. Refuses: 14, 9 (number: 32) for fewer than
 * 32 rows. `row_count` counts rows, not bytes.
 * State: only read. Rows: the first 32 are written; later ones stay. */
csengadrul_answer csengadrul_listing(const uint8_t *state, size_t state_length, csengadrul_row *rows, size_t row_count);

/* Kinds of reasons. */
enum {
    CSENGADRUL_WHY_UNUSED = 0,    /* it is unused */
    CSENGADRUL_WHY_RUNNING = 1,   /* it runs */
    CSENGADRUL_WHY_READY = 2,     /* it is ready behind `ahead` of its own class, the one that runs among them */
    CSENGADRUL_WHY_MAILBOX = 3,   /* it waits at mailbox `which` behind `ahead` others */
    CSENGADRUL_WHY_SEMAPHORE = 4, /* it waits at semaphore `which` behind `ahead` others */
    CSENGADRUL_WHY_BEHIND = 5     /* it is ready, or is process 0, while process `which` of another class runs */
};

/* Why a process is where it is, behind the three numbers of an answer. `which` and
 * `ahead` are 0 where the kind does not name them; where the question is refused,
 * all three are 0. */
typedef struct {
    uint32_t code;
    uint32_t number;
    uint32_t running;
    uint32_t kind;  /* one of the six above */
    uint32_t which; /* the mailbox, the semaphore, or the number of the process that runs */
    uint32_t ahead; /* how many come before it */
} csengadrul_reason;

/* Tells why the process of this name is where it is: the one reason that holds for
 * it. Process 0 may be asked about too, and an unused number by the name that it had
 * last, which is the number alone before it is born.
 * Answers 0 0 and the running process. Refuses: 14, 1 for a name whose number is over
 * 31, or that has another birth count than its number.
 * State: only read; nothing changes. */
csengadrul_reason csengadrul_why(const uint8_t *state, size_t state_length, uint32_t name);

#ifdef __cplusplus
}
#endif

#endif
