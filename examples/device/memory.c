/* memcpy and memset, all that the library needs of its surroundings. Every access is
 * aligned, so they work with the MMU off; those of a C library often do not. Compile with
 * -fno-tree-loop-distribute-patterns: gcc would make each loop a call of itself. */
#include <stddef.h>
#include <stdint.h>

typedef uint64_t __attribute__((may_alias)) word;

void *memcpy(void *restrict to, const void *restrict from, size_t length) {
    uint8_t *t = to;
    const uint8_t *f = from;
    if ((uintptr_t)t % 8 == (uintptr_t)f % 8) {
        for (; length && (uintptr_t)t % 8; length--) *t++ = *f++;
        for (; length >= 8; length -= 8, t += 8, f += 8) *(word *)t = *(const word *)f;
    }
    while (length--) *t++ = *f++;
    return to;
}

void *memset(void *to, int byte, size_t length) {
    uint8_t *t = to;
    const word all = UINT64_C(0x0101010101010101) * (uint8_t)byte;
    for (; length && (uintptr_t)t % 8; length--) *t++ = (uint8_t)byte;
    for (; length >= 8; length -= 8, t += 8) *(word *)t = all;
    while (length--) *t++ = (uint8_t)byte;
    return to;
}
