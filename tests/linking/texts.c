/* Words for codes, places and reasons: each has one of its own, every other number says that it is none. */
#include "csengadrul_text.h"

#include <stdio.h>
#include <string.h>

#define NUMBERS 1000

typedef const char *(*words)(uint32_t);

static unsigned passed, failed;

static void expect(int holds, const char *what, unsigned long number) {
    if (holds) {
        passed++;
        return;
    }
    failed++;
    printf("not so: %s (%lu)\n", what, number);
}

static int is_code(uint32_t number) {
    return number <= 18 || number == 32;
}

static int is_place(uint32_t number) {
    return number <= 5;
}

static int is_kind_of_reason(uint32_t number) {
    return number <= 5;
}

static void each_has_its_own(words text, int (*is_one)(uint32_t), const char *none) {
    uint32_t number, other;
    for (number = 0; number < NUMBERS; number++) {
        expect((strcmp(text(number), none) != 0) == is_one(number), "it has a text exactly if it is one", number);
        for (other = 0; is_one(number) && other < number; other++)
            expect(strcmp(text(number), text(other)) != 0 || !is_one(other), "two have the same text", number);
    }
    expect(strcmp(text(0xffffffffu), none) == 0, "it has a text", 0xffffffffu);
}

int main(void) {
    each_has_its_own(csengadrul_code_text, is_code, "no code of the kernel");
    each_has_its_own(csengadrul_place_text, is_place, "no place of the kernel");
    each_has_its_own(csengadrul_reason_text, is_kind_of_reason, "no reason of the kernel");
    printf("%u passed, %u failed\n", passed, failed);
    return failed != 0;
}
