/* Words for codes, places and reasons. Assumes nothing: every number has a text. */
#include "csengadrul_text.h"

const char *csengadrul_code_text(uint32_t code) {
    switch (code) {
    case CSENGADRUL_DONE: return "done";
    case CSENGADRUL_NO_PROCESS: return "no process has this name now";
    case CSENGADRUL_NO_CLASS: return "no such class";
    case CSENGADRUL_NO_MAILBOX: return "no such mailbox";
    case CSENGADRUL_NO_SEMAPHORE: return "no such semaphore";
    case CSENGADRUL_NO_CALLER: return "no process runs that could call this";
    case CSENGADRUL_LONG_MESSAGE: return "the message is too long";
    case CSENGADRUL_HAND_FULL: return "the caller has a message in hand already";
    case CSENGADRUL_HAND_EMPTY: return "the caller has no message in hand";
    case CSENGADRUL_SHORT_ROOM: return "the room or the table is too short";
    case CSENGADRUL_ALL_PROCESSES: return "every process number is in use";
    case CSENGADRUL_MAILBOX_FULL: return "the mailbox is full";
    case CSENGADRUL_NO_BUFFER: return "too few buffers are free";
    case CSENGADRUL_COUNT_FULL: return "the semaphore counts as far as it can";
    case CSENGADRUL_NOT_SOUND: return "the state area holds no sound state";
    case CSENGADRUL_OTHER_STORE: return "the store has another length";
    case CSENGADRUL_NO_SLICE: return "the slice is 0 or over 255";
    case CSENGADRUL_NO_SIZE: return "the capacity is 0 or over 32, or the mode over 1";
    case CSENGADRUL_MAILBOX_BUSY: return "the mailbox has messages or waiters";
    case CSENGADRUL_WAITS: return "done, and the caller waits";
    default: return "no code of the kernel";
    }
}

const char *csengadrul_place_text(uint32_t place) {
    switch (place) {
    case CSENGADRUL_UNUSED: return "unused";
    case CSENGADRUL_RUNNING: return "running";
    case CSENGADRUL_READY: return "ready";
    case CSENGADRUL_AT_MAILBOX: return "waiting at a mailbox";
    case CSENGADRUL_AT_SEMAPHORE: return "waiting at a semaphore";
    case CSENGADRUL_STANDING_BY: return "standing by";
    default: return "no place of the kernel";
    }
}

const char *csengadrul_reason_text(uint32_t kind) {
    switch (kind) {
    case CSENGADRUL_WHY_UNUSED: return "unused";
    case CSENGADRUL_WHY_RUNNING: return "running";
    case CSENGADRUL_WHY_READY: return "ready, behind others of its class";
    case CSENGADRUL_WHY_MAILBOX: return "waiting at a mailbox";
    case CSENGADRUL_WHY_SEMAPHORE: return "waiting at a semaphore";
    case CSENGADRUL_WHY_BEHIND: return "ready, while another process runs";
    default: return "no reason of the kernel";
    }
}
