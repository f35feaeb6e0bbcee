/* Makes the calls of the script on standard input, and writes the state area that they lead to. The first line may name
 * a slice. Answers are not looked at. A line that is no call, or a script too long for this, ends it with status 1. */
#include "csengadrul.h"

#include <stdio.h>
#include <stdlib.h>
#include <string.h>

#define SCRIPT_SIZE 65536
#define SENT_SIZE 4200 /* bytes that a line of a script sends at most */
#define SLICE_WORD "slice "
#define S state, sizeof state
#define STORE store, sizeof store

static uint8_t state[CSENGADRUL_STATE_SIZE];
static uint8_t store[CSENGADRUL_STORE_SIZE];
static uint8_t message[SENT_SIZE];
static uint8_t room[CSENGADRUL_MESSAGE_SIZE];
static char script[SCRIPT_SIZE];

static const struct {
    const char *word;
    csengadrul_answer (*call)(uint8_t *, size_t);
} alone[] = {
    {"end", csengadrul_end},
    {"yield", csengadrul_yield},
    {"tick", csengadrul_tick},
    {"release", csengadrul_release}
};

static const struct {
    const char *word;
    csengadrul_answer (*call)(uint8_t *, size_t, uint32_t);
} numbered[] = {
    {"create", csengadrul_create},
    {"stop", csengadrul_stop},
    {"class", csengadrul_class},
    {"receive", csengadrul_receive},
    {"signal", csengadrul_signal},
    {"wait", csengadrul_wait}
};

static unsigned digit(char hex) {
    return (unsigned)(hex <= '9' ? hex - '0' : hex - 'a' + 10);
}

/* Bytes as a script has them, into the message; how many there are. */
static size_t bytes_of(const char *hex) {
    size_t length = 0;
    if (strcmp(hex, "-") == 0) return 0;
    for (; hex[2 * length] && length < sizeof message; length++)
        message[length] = (uint8_t)(16 * digit(hex[2 * length]) + digit(hex[2 * length + 1]));
    return length;
}

/* Makes a call on the state area alone, with a number or without; 0 if there is none of this name. */
static int make_simple(const char *word, uint32_t number) {
    size_t i;
    for (i = 0; i < sizeof alone / sizeof *alone; i++)
        if (strcmp(word, alone[i].word) == 0) {
            alone[i].call(S);
            return 1;
        }
    for (i = 0; i < sizeof numbered / sizeof *numbered; i++)
        if (strcmp(word, numbered[i].word) == 0) {
            numbered[i].call(S, number);
            return 1;
        }
    return 0;
}

/* Makes the call of this name; 0 if there is none. */
static int make(const char *word, uint32_t number, const char *hex) {
    if (strcmp(word, "send") == 0) csengadrul_send(S, STORE, number, message, bytes_of(hex));
    else if (strcmp(word, "read") == 0) csengadrul_read(S, STORE, room, number);
    else if (strcmp(word, "why") == 0) csengadrul_why(S, number);
    else return make_simple(word, number);
    return 1;
}

/* The word that begins here: ends it, and goes on to what is behind it. A line without the word has none, "". */
static const char *next_word(char **at) {
    char *word = *at;
    while (**at && **at != ' ') ++*at;
    if (**at) *(*at)++ = 0;
    return word;
}

/* Ends the line that begins here; gives where the next one begins. */
static char *end_line(char *line) {
    while (*line && *line != '\n') line++;
    if (*line) *line++ = 0;
    return line;
}

/* Makes the call of the line that begins here; gives where the next line begins, or NULL if it is no call. */
static char *make_line(char *line) {
    char *end = end_line(line), *at = line;
    const char *word = next_word(&at), *number = next_word(&at);
    return make(word, (uint32_t)atoi(number), next_word(&at)) ? end : NULL;
}

/* Makes the fresh start; gives where the calls begin. Where the slice that is named is refused, the usual one holds. */
static char *start(char *line) {
    csengadrul_fresh(S);
    if (memcmp(line, SLICE_WORD, strlen(SLICE_WORD)) != 0) return line;
    csengadrul_fresh_slice(S, (uint32_t)atoi(line + strlen(SLICE_WORD)));
    return end_line(line);
}

int main(void) {
    size_t length = fread(script, 1, sizeof script, stdin);
    char *at;
    if (length == sizeof script) return 1;
    at = start(script);
    while (at != NULL && *at) at = make_line(at);
    return at == NULL || fwrite(state, 1, sizeof state, stdout) != sizeof state || fflush(stdout) != 0;
}
