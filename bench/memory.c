/* Copies and fills of 8 bytes at a time, for a build that has no vector registers: the C library's use
 * them. To be compiled with -fno-builtin, so that no loop becomes a call of the function it stands in. */
#include <stddef.h>
#include <stdint.h>

/* Eight bytes at any address, which may be part of anything. */
typedef uint64_t __attribute__((may_alias, aligned(1))) eight;

void *memcpy(void *to, const void *from, size_t length) {
    uint8_t *t = to;
    const uint8_t *f = from;
    for (; length >= 8; length -= 8, t += 8, f += 8) *(eight *)t = *(const eight *)f;
    for (; length > 0; length--) *t++ = *f++;
    return to;
}

void *memset(void *at, int value, size_t length) {
    uint8_t *t = at;
    uint64_t all = 0x0101010101010101 * (uint64_t)(uint8_t)value;
    for (; length >= 8; length -= 8, t += 8) *(eight *)t = all;
    for (; length > 0; length--) *t++ = (uint8_t)value;
    return at;
}
