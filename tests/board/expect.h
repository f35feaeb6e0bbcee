/* What the known answers are said with: the areas as firmware lends them, calls with the answer that each must give,
 * and looks at what a call changed. Everything that must stay is compared byte for byte. */
#ifndef EXPECT_H
#define EXPECT_H

#include "lend.h"

#define TABLE_ROWS (2 * CSENGADRUL_PROCESSES)
#define SLICE 3 /* ticks of a full slice, as document 01 has it */

extern uint8_t state[CSENGADRUL_STATE_SIZE + 1];
extern uint8_t store[CSENGADRUL_STORE_SIZE + 1];
extern uint8_t message[CSENGADRUL_MESSAGE_SIZE + 1];
extern uint8_t room[CSENGADRUL_MESSAGE_SIZE + 8];
extern csengadrul_row rows[TABLE_ROWS];

extern enum lies side;                       /* where the areas lie */
extern uint8_t births[CSENGADRUL_PROCESSES]; /* how often each number was born, as document 02 counts */
extern unsigned passed, failed;
extern unsigned long codes_seen; /* bit c on if code c was given */

void count(int good, const char *what);

/* How the next calls are lent an area; and all areas as firmware lends them. */
void lay(enum kind kind, enum lies lies, size_t told, size_t bytes);
void usual(void);

/* Makes a call and counts whether it answers this, and touches nothing that it must not. The second is for calls with
 * one number, and sets a mailbox to what it is at the start. */
outcome expect_of(const char *what, enum call call, numbers given, uint32_t code, uint32_t number, uint32_t running);
outcome expect(const char *what, enum call call, uint32_t given, uint32_t code, uint32_t number, uint32_t running);

int is_reason(const csengadrul_reason *r, uint32_t kind, uint32_t which, uint32_t ahead);
int row_is(size_t process, unsigned place, unsigned which, unsigned position, unsigned class_, unsigned ticks,
           unsigned full, unsigned length);

/* A fresh kernel with this slice, and with the usual one. */
void start(uint32_t slice);
void fresh(void);

/* The name that a number has, in use or not. */
uint32_t name(uint32_t number);

/* This number is born. */
void create(uint32_t class_, uint32_t number, uint32_t running);
void stop(uint32_t number, uint32_t running);
void tick(uint32_t running);
void set(uint32_t mailbox, uint32_t capacity, uint32_t mode, uint32_t code, uint32_t running);

/* A message of this length, each byte another than its neighbours. */
void write_message(size_t length, unsigned seed);
void send(uint32_t mailbox, size_t length, uint32_t code, uint32_t running);

/* A send that first drops the message that has these buffers, a bit each. */
void send_dropping(uint32_t mailbox, size_t length, uint32_t buffers, uint32_t running);

/* The caller takes the first message of a mailbox, of this length, and is done with it. */
void fetch(uint32_t mailbox, size_t length, uint32_t running);

/* Counts whether the messages of a mailbox begin in these buffers, the oldest first, by the tables of docs/IMAGE.md. */
void queue_is(uint32_t mailbox, const uint8_t *buffers, size_t messages);
#define QUEUE_IS(mailbox, buffers) queue_is(mailbox, buffers, sizeof buffers)

/* A call that only looks at the state, with another byte in it, which is put back. */
void with_byte(size_t at, uint8_t byte, uint32_t code, uint32_t running);

/* The known answers of messages in several buffers. */
void pages(void);

#endif
