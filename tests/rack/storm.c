/* The interrupt ring of examples/rack with interrupts that come at any moment. The handler of a timer puts a numbered
 * send, a signal and a tick into the ring, while the main loop calls the kernel all the time. When ENOUGH interrupts
 * came during a call, everything that was put must have arrived: once, in order and whole.
 * Assumes POSIX signals, and ring.c compiled with -Dcsengadrul_tick=counted_tick. With -DWITHOUT_RING the handler calls
 * csengadrul_signal itself, and then signals must be lost: the call that it interrupts writes the old count. */
#define _DEFAULT_SOURCE /* sys/time.h has setitimer then, in C89 too */
#include "ring.h"

#include <signal.h>
#include <stdio.h>
#include <sys/time.h>

#define ENOUGH 1000
#define TURN_LIMIT 20000000ul
#define LAST_TURNS (4 * RING_SIZE) /* more than what is in the ring at the end can take */
#define NUMBER_SIZE 4              /* bytes at the start of a message */
#define SLICE 3                    /* ticks of a full slice */

enum { STORM, OWN };                  /* mailboxes */
enum { COUNTED };                     /* a semaphore at which nobody waits */
enum { BUSY_CLASS = 1, STORM_CLASS }; /* what the storm brings goes first */

static uint8_t state[CSENGADRUL_STATE_SIZE];
static uint8_t store[CSENGADRUL_STORE_SIZE];
static ring from_handler;

static volatile sig_atomic_t calling;           /* a call is under way */
static volatile uint32_t came, during;          /* interrupts in all, and during a call */
static volatile uint32_t sends, signals, ticks; /* what the handler has put */
static uint32_t sends_arrived, ticks_made;      /* what came of it */
static uint32_t asked, laps;                    /* interrupts asked for; messages that the busy process sent itself */
static unsigned wrong;

static csengadrul_answer answer;
#define CALL(call) (calling = 1, answer = (call), calling = 0)

#ifdef WITHOUT_RING
#define ring_put_signal(r, semaphore) (csengadrul_signal(state, sizeof state, semaphore).code == CSENGADRUL_DONE)
#endif

static void expect(const char *what, int holds) {
    if (holds) return;
    wrong++;
    printf("not so: %s\n", what);
}

csengadrul_answer counted_tick(uint8_t *area, size_t length) {
    ticks_made++;
    return csengadrul_tick(area, length);
}

/* Byte i of message `number`: of the number first, and then one unlike its neighbours. */
static uint8_t byte_of(uint32_t number, size_t i) {
    return (uint8_t)(i < NUMBER_SIZE ? number >> 8 * i : 7 * i + 31 * number);
}

static void write_message(uint8_t *message, uint32_t number, size_t length) {
    size_t i;
    for (i = 0; i < length; i++) message[i] = byte_of(number, i);
}

static size_t length_of(uint32_t number) {
    return NUMBER_SIZE + number % (RING_BYTES - NUMBER_SIZE + 1);
}

/* The emulator that runs this on Arm begins a handler with a stack that is not aligned as a call wants it. */
__attribute__((force_align_arg_pointer)) static void handler(int signal_number) {
    uint8_t message[RING_BYTES];
    (void)signal_number;
    came = came + 1;
    if (calling) during = during + 1;
    write_message(message, sends, length_of(sends));
    if (ring_put_send(&from_handler, STORM, message, length_of(sends))) sends = sends + 1;
    if (ring_put_signal(&from_handler, COUNTED)) signals = signals + 1;
    if (ring_put_tick(&from_handler)) ticks = ticks + 1;
}

static void set_timer(long microseconds) {
    static struct itimerval value;
    value.it_value.tv_usec = microseconds;
    expect("there is a timer", setitimer(ITIMER_REAL, &value, NULL) == 0);
}

/* Asks for another interrupt when the last one has come and half of the ring is free: however slow the machine is, the
 * main loop gets on. */
static void ask_for_interrupt(void) {
    if (asked != came || from_handler.put - from_handler.taken > RING_SIZE / 2) return;
    asked++;
    set_timer(20 + asked % 64);
}

/* Reads and releases the message in the running process's hand, which is this one. Answers 0 for an empty hand. */
static int take(uint32_t number, size_t length) {
    uint8_t room[CSENGADRUL_MESSAGE_SIZE];
    size_t i = 0;
    CALL(csengadrul_read(state, sizeof state, store, sizeof store, room, sizeof room));
    if (answer.code == CSENGADRUL_HAND_EMPTY) return 0;
    while (i < length && room[i] == byte_of(number, i)) i++;
    expect("the message is the next one, and whole",
           answer.code == CSENGADRUL_DONE && answer.number == length && i == length);
    CALL(csengadrul_release(state, sizeof state));
    expect("it is released", answer.code == CSENGADRUL_DONE);
    return 1;
}

static void storm_step(void) {
    if (take(sends_arrived, length_of(sends_arrived))) {
        sends_arrived++;
        return;
    }
    CALL(csengadrul_receive(state, sizeof state, STORM));
    expect("receive", answer.code == CSENGADRUL_DONE || answer.code == CSENGADRUL_WAITS);
}

/* Sends itself the longest message. */
static void busy_step(void) {
    uint8_t message[CSENGADRUL_MESSAGE_SIZE];
    write_message(message, laps, sizeof message);
    CALL(csengadrul_send(state, sizeof state, store, sizeof store, OWN, message, sizeof message));
    expect("send", answer.code == CSENGADRUL_DONE);
    CALL(csengadrul_receive(state, sizeof state, OWN));
    expect("receive of one's own", answer.code == CSENGADRUL_DONE);
    expect("it is there", take(laps, sizeof message));
    laps++;
}

static void take_turn(uint32_t storm) {
    uint32_t code = ring_drain(&from_handler, state, sizeof state, store, sizeof store);
    expect("the ring's calls are done", code == CSENGADRUL_DONE || code == CSENGADRUL_MAILBOX_FULL);
    if (state[CSENGADRUL_OFFSET_RUNNING] == storm) storm_step();
    else busy_step();
}

int main(void) {
    const uint8_t *count = state + CSENGADRUL_OFFSET_COUNT + 2 * COUNTED;
    unsigned long turn;
    uint32_t storm;
    csengadrul_fresh_slice(state, sizeof state, SLICE);
    storm = CSENGADRUL_NUMBER(csengadrul_create(state, sizeof state, STORM_CLASS).number);
    csengadrul_create(state, sizeof state, BUSY_CLASS);
    expect("there is a handler", signal(SIGALRM, handler) != SIG_ERR);
    for (turn = 0; turn < TURN_LIMIT && during < ENOUGH && !wrong; turn++) {
        ask_for_interrupt();
        take_turn(storm);
    }
    set_timer(0);
    for (turn = 0; turn < LAST_TURNS && !wrong; turn++) take_turn(storm);
    expect("enough interrupts came during a call", during >= ENOUGH);
    expect("the ring lost nothing", from_handler.lost == 0);
    expect("every send arrived", sends_arrived == sends);
    expect("every signal arrived", (uint32_t)(count[0] | count[1] << 8) == signals);
    expect("every tick was made once", ticks_made == ticks);
    printf("%lu interrupts, %lu of them during a call; %lu sends arrived; %lu laps\n", (unsigned long)came,
           (unsigned long)during, (unsigned long)sends_arrived, (unsigned long)laps);
    return wrong != 0;
}
