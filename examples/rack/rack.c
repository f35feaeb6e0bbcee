/*
 * A small rack: firmware over the kernel, to begin a product from.
 *
 * The rider has a page: it sends the preamp the settings that stand there, and the
 * printer the text, whole in a single message. An interrupt brings readings for the
 * meters; new ones push out stale ones. In the middle of the page the printer is stopped
 * with it in its hand, and started again later. Standard output is the paper, standard
 * error what the operator sees. The status is 0 only if all of check_all holds.
 *
 * A task is a step function. The kernel says who runs, and the main loop takes a
 * step of that task. A step ends where another task may run next; the following
 * one begins when what it waited for is there. Interrupts are simulated: the main
 * loop calls their handlers, which would do the same in the middle of a call.
 */
#include "csengadrul.h"
#include "csengadrul_text.h"
#include "ring.h"

#include <stdio.h>
#include <stdlib.h>
#include <string.h>

#define TURN_LIMIT 1000  /* turns of the main loop; the page takes far fewer */
#define METER_TURNS 3    /* turns from one reading to the next */
#define METER_QUEUE 6    /* readings that wait for the meters at most */
#define TIMER_TURNS 5    /* turns from one tick to the next */
#define SLICE 3          /* ticks that a task runs before its equals have their turn */
#define STOPPED_TURNS 40 /* turns that the printer stays stopped */
#define LINE_SIZE 64     /* bytes of the longest line, with its newline and a zero */
#define CHANNELS 32

enum { PRINTER, PREAMP, METERS };                       /* mailboxes */
enum { NEED };                                          /* a semaphore: the printer needs the page */
enum { SHARED_CLASS = 1, PRINTER_CLASS, PREAMP_CLASS }; /* the rider and the meters share one, by the timer */
enum { CHANNEL, GAIN, PHANTOM, SETTING_SIZE };          /* bytes of a setting: number, dB, 48 V */

static const struct {
    char text[LINE_SIZE];
    uint8_t setting[SETTING_SIZE]; /* channel 0: none */
} page[] = {
    {"MONITOR WORLD - PAGE 2 OF 5\n", {0, 0, 0}},
    {"FOH desk at stage level, 24 m out, on axis\n", {0, 0, 0}},
    {" 1 kick in       beta 91, no pad, on the pillow\n", {1, 24, 0}},
    {" 2 kick out      d6, gate from ch 1, on a short stand\n", {2, 28, 0}},
    {" 3 snare top     57, pad 10 dB, a clip to the rim\n", {3, 30, 0}},
    {" 8 bass DI       48 V on, lift ground, amp on stage left\n", {8, 20, 1}},
    {" 9 keys L        passive DI, from a submix on the riser\n", {9, 18, 0}},
    {"10 keys R        passive DI, from a submix on the riser\n", {10, 18, 0}},
    {"14 ribbon OH     R84, a metre above the snare, on a boom\n", {14, 42, 0}},
    {"drums on a riser of 60 cm, keys on one of 40, skirts black\n", {0, 0, 0}},
    {"no phantom power on 14\n", {14, 42, 0}}
};
#define LINES (sizeof page / sizeof *page)

static uint8_t state[CSENGADRUL_STATE_SIZE];
static uint8_t store[CSENGADRUL_STORE_SIZE];
static uint8_t room[CSENGADRUL_MESSAGE_SIZE]; /* one for all tasks: no step leaves anything in it */
static ring handlers;                         /* one for all: METERS drops, so that no tick waits behind a reading */

static char text[LINES * LINE_SIZE + 1]; /* of the page, as it is sent */
static char paper[sizeof text];
static size_t printed; /* bytes on paper */
static uint8_t preamp[CHANNELS][SETTING_SIZE];
static volatile unsigned readings;   /* that the handler has put */
static unsigned arrived, pushed_out; /* of these, whole and in order; stale ones */
static uint8_t peak;

typedef void (*step)(void);
static step steps[CSENGADRUL_PROCESSES]; /* by number, as the kernel says who runs */
static uint32_t printer;       /* its name, not that of the next process of its number; 0 while it is stopped */
static unsigned stopped_since; /* the turn */

static void fail(const char *what, const char *why) {
    fprintf(stderr, "rack: %s: %s\n", what, why);
    exit(1);
}

/* Hands on an answer with the code 0 or the other one that is counted on. */
static csengadrul_answer expect(const char *call, csengadrul_answer answer, uint32_t other) {
    if (answer.code != CSENGADRUL_DONE && answer.code != other) fail(call, csengadrul_code_text(answer.code));
    return answer;
}

/* Reads the message in the running task's hand to the room. With an empty hand the
 * task receives instead, and has a message when it runs again. */
static int read_message(uint32_t mailbox, size_t *length) {
    csengadrul_answer answer = csengadrul_read(state, sizeof state, store, sizeof store, room, sizeof room);
    if (answer.code == CSENGADRUL_HAND_EMPTY) {
        expect("receive", csengadrul_receive(state, sizeof state, mailbox), CSENGADRUL_WAITS);
        return 0;
    }
    *length = expect("read", answer, CSENGADRUL_DONE).number;
    return 1;
}

static int take_message(uint32_t mailbox, size_t *length) {
    if (!read_message(mailbox, length)) return 0;
    expect("release", csengadrul_release(state, sizeof state), CSENGADRUL_DONE);
    return 1;
}

static void send(uint32_t mailbox, const uint8_t *message, size_t length) {
    csengadrul_answer answer = csengadrul_send(state, sizeof state, store, sizeof store, mailbox, message, length);
    expect("send", answer, CSENGADRUL_DONE);
}

static void print(const uint8_t *line, size_t length) {
    if (printed + length >= sizeof paper) fail("printer", "that is no line of the page");
    memcpy(paper + printed, line, length);
    if (printf("%s", paper + printed) < 0 || fflush(stdout) != 0) fail("printer", "no paper");
    printed += length;
}

/* Prints the first line that is not on paper. The page stays in hand until all are: a
 * new printer, which gets it again, goes on where the stopped one was. */
static void printer_step(void) {
    size_t length, end = printed;
    if (!read_message(PRINTER, &length)) return;
    while (end < length && room[end] != '\n') end++;
    if (end < length) print(room + printed, end + 1 - printed);
    else expect("release", csengadrul_release(state, sizeof state), CSENGADRUL_DONE);
}

/* When the printer needs the page, sends it whole, and before the first time the
 * settings. So what a stopped printer had in its hand goes to the new printer. */
static void rider_step(void) {
    static enum { WAIT, SEND } next = WAIT;
    static size_t line;
    if (next == WAIT) {
        next = SEND;
        expect("wait", csengadrul_wait(state, sizeof state, NEED), CSENGADRUL_WAITS);
    } else if (line < LINES) {
        const uint8_t *setting = page[line++].setting;
        if (setting[CHANNEL] != 0) send(PREAMP, setting, SETTING_SIZE);
    } else {
        next = WAIT;
        send(PRINTER, (const uint8_t *)text, strlen(text));
    }
}

static void preamp_step(void) {
    size_t length;
    if (!take_message(PREAMP, &length)) return;
    if (length != SETTING_SIZE || room[CHANNEL] >= CHANNELS) fail("preamp", "that is no setting");
    memcpy(preamp[room[CHANNEL]], room, SETTING_SIZE);
}

/* Takes the oldest reading that is there. Only METER_QUEUE newer ones push one out. */
static void meters_step(void) {
    unsigned next = arrived + pushed_out, missing;
    size_t length;
    if (!take_message(METERS, &length)) return;
    missing = (uint8_t)(room[0] - next);
    if (length != 2 || (missing && next + missing + METER_QUEUE > readings)) fail("meters", "that is not the next reading");
    pushed_out += missing;
    arrived++;
    if (room[1] > peak) peak = room[1];
}

/* Handlers. What finds no room in a ring is counted there. */
static void meter_handler(void) {
    uint8_t reading[2];
    reading[0] = (uint8_t)readings;
    reading[1] = (uint8_t)(37 * readings % 101); /* a level */
    if (ring_put_send(&handlers, METERS, reading, sizeof reading)) readings = readings + 1;
}

static void timer_handler(void) {
    ring_put_tick(&handlers);
}

static uint32_t start(step task, uint32_t process_class) {
    uint32_t name = expect("create", csengadrul_create(state, sizeof state, process_class), CSENGADRUL_DONE).number;
    steps[CSENGADRUL_NUMBER(name)] = task;
    return name;
}

static void start_printer(void) {
    printer = start(printer_step, PRINTER_CLASS);
    ring_put_signal(&handlers, NEED); /* as its handler does when it comes on line */
}

static void power_on(void) {
    size_t i;
    for (i = 0; i < LINES; i++) memcpy(text + strlen(text), page[i].text, strlen(page[i].text));
    expect("fresh", csengadrul_fresh_slice(state, sizeof state, SLICE), CSENGADRUL_DONE);
    expect("mailbox", csengadrul_mailbox(state, sizeof state, METERS, METER_QUEUE, CSENGADRUL_DROPS), CSENGADRUL_DONE);
    memset(preamp, 1, sizeof preamp); /* 48 V on everywhere, as the last show left it */
    start(preamp_step, PREAMP_CLASS);
    start(rider_step, SHARED_CLASS);
    start(meters_step, SHARED_CLASS);
    start_printer();
}

static const csengadrul_row *listing(void) {
    static csengadrul_row rows[CSENGADRUL_PROCESSES];
    expect("listing", csengadrul_listing(state, sizeof state, rows, CSENGADRUL_PROCESSES), CSENGADRUL_DONE);
    return rows;
}

static void operate(unsigned turn) {
    if (stopped_since == 0 && printed >= strlen(text) / 2 && listing()[CSENGADRUL_NUMBER(printer)].full) {
        expect("stop", csengadrul_stop(state, sizeof state, printer), CSENGADRUL_DONE);
        printer = 0;
        stopped_since = turn;
        fprintf(stderr, "rack: printer stopped with the page in its hand\n");
    } else if (printer == 0 && turn == stopped_since + STOPPED_TURNS) {
        start_printer();
        fprintf(stderr, "rack: printer started again\n");
    }
}

/* CRC-16 of the state area. The kernel refuses damage, unless by chance it makes
 * another sound state; a sum that is kept from turn to turn tells that too. */
static uint32_t sum_of_state(void) {
    uint32_t sum = 0xffff;
    size_t i, bit;
    for (i = 0; i < sizeof state; i++) {
        sum ^= (uint32_t)state[i] << 8;
        for (bit = 0; bit < 8; bit++) sum = (sum << 1 ^ (sum & 0x8000 ? 0x1021 : 0)) & 0xffff;
    }
    return sum;
}

static void drain(void) { /* where too few buffers are free the next turn goes on with it */
    uint32_t code = ring_drain(&handlers, state, sizeof state, store, sizeof store);
    if (code != CSENGADRUL_DONE && code != CSENGADRUL_NO_BUFFER) fail("ring", csengadrul_code_text(code));
}

static uint32_t running(void) { /* the same number as in the last answer */
    return state[CSENGADRUL_OFFSET_RUNNING];
}

static int is_at_rest(void) {
    return printed == strlen(text) && running() == 0 && handlers.put == handlers.taken;
}

static void check(int holds, const char *what) {
    if (!holds) fail("not so", what);
}

static void check_all(void) {
    const csengadrul_row *rows = listing();
    size_t i;
    for (i = 0; i < CSENGADRUL_PROCESSES; i++) check(!rows[i].full, "no hand is full");
    for (i = 0; i < 4; i++) check(state[CSENGADRUL_OFFSET_FREE_BITS + i] == 0xff, "every buffer is free");
    check(strcmp(paper, text) == 0, "every line is on paper, whole");
    for (i = 0; i < LINES; i++) {
        const uint8_t *setting = page[i].setting, *set = preamp[setting[CHANNEL]];
        check(setting[CHANNEL] == 0 || memcmp(set, setting, SETTING_SIZE) == 0, "each preamp is set as the page says");
    }
    check(preamp[14][PHANTOM] == 0, "no phantom power on 14");
    check(arrived + pushed_out == readings, "every reading arrived, or newer ones pushed it out");
    check(handlers.lost == 0, "the ring lost nothing");
    check(stopped_since != 0 && printer != 0, "the printer was stopped and started again");
    check(is_at_rest(), "the rack came to rest");
}

int main(void) {
    unsigned turn;
    uint32_t sum;
    power_on();
    sum = sum_of_state();
    for (turn = 1; turn <= TURN_LIMIT && !is_at_rest(); turn++) {
        if (turn % METER_TURNS == 0) meter_handler();
        if (turn % TIMER_TURNS == 0) timer_handler();
        if (sum_of_state() != sum) fail("state area", "written by another than the kernel");
        drain();
        if (running() != 0) steps[running()](); /* else a board with an empty ring sleeps until an interrupt comes */
        operate(turn);
        sum = sum_of_state();
    }
    check_all();
    fprintf(stderr, "rack: the page is out, in %u turns; %u readings and %u pushed out, peak %u\n", turn - 1, arrived,
            pushed_out, (unsigned)peak);
    return 0;
}
