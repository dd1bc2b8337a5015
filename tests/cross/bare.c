/* The cases that lie in the second bank of flash, on the bare machine of
 * examples/device; KIND is the kind of the file. The last line tells the stack that a call
 * has taken at most. */
#include "cases.h"
#include "device.h"

#ifndef KIND
#define KIND PLAIN
#endif
#define PAINT UINT64_C(0x9e3779b97f4a7c15)

extern uint64_t stack_low[], stack_high[];
static uint64_t most, calls;

void say(const void *bytes, size_t length) { serial_bytes(bytes, length); }

size_t strlen(const char *text) {
    size_t length = 0;
    while (text[length]) length++;
    return length;
}

/* The stack below the caller's frame is painted; after the call the lowest word that has
 * another colour tells how deep it went. */
static inline __attribute__((always_inline)) void paint(volatile uint64_t *frame) {
    for (volatile uint64_t *word = stack_low; word < frame; word++) *word = PAINT;
}

static inline __attribute__((always_inline)) void measure(volatile uint64_t *frame) {
    volatile uint64_t *word = stack_low;
    while (*word == PAINT) word++;
    const uint64_t depth = (uint64_t)(frame - word) * sizeof *word;
    if (depth > most) most = depth;
    calls++;
}

uint32_t call(request *r) {
    volatile uint64_t *frame;
    __asm__ volatile("mov %0, sp" : "=r"(frame));
    paint(frame);
    const uint32_t number = make_call(r);
    measure(frame);
    return number;
}

/* memcpy and memset of examples/device at every alignment, and nothing beside. */
static int memory_works(void) {
    static uint8_t from[64], to[64];
    for (size_t i = 0; i < sizeof from; i++) from[i] = (uint8_t)(i + 1);
    for (size_t t = 1; t < 10; t++)
        for (size_t f = 0; f < 9; f++)
            for (size_t length = 0; length < 40; length++) {
                for (size_t i = 0; i < sizeof to; i++) to[i] = 0;
                if (memcpy(to + t, from + f, length) != to + t) return 0;
                for (size_t i = 0; i < sizeof to; i++)
                    if (to[i] != (i >= t && i < t + length ? from[f + i - t] : 0)) return 0;
                if (memset(to + t, 0x1a5, length) != to + t) return 0;
                for (size_t i = 0; i < sizeof to; i++)
                    if (to[i] != (i >= t && i < t + length ? 0xa5 : 0)) return 0;
            }
    return 1;
}

void device_main(void) {
    if (!memory_works()) serial_text("memcpy or memset is wrong\n");
    run_cases(DEVICE_FLASH, KIND);
    serial_number(calls);
    serial_text(" calls, at most ");
    serial_number(most);
    serial_text(" bytes of stack of ");
    serial_number((uint64_t)(stack_high - stack_low) * 8);
    serial_text("\n");
}
