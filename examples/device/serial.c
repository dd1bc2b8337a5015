/* The serial line, a PL011, and what is said on it when the machine faults. */
#include "device.h"

#define PL011_DATA (*(volatile uint32_t *)0x09000000)
#define PL011_FLAGS (*(volatile uint32_t *)0x09000018)
#define PL011_TRANSMIT_FULL 0x20

void serial_bytes(const void *bytes, size_t length) {
    for (const uint8_t *b = bytes; length; length--) {
        while (PL011_FLAGS & PL011_TRANSMIT_FULL) continue;
        PL011_DATA = *b++;
    }
}

void serial_text(const char *text) {
    while (*text) serial_bytes(text++, 1);
}

void serial_number(uint64_t number) {
    char digits[20];
    size_t first = sizeof digits;
    do {
        digits[--first] = (char)('0' + number % 10);
        number /= 10;
    } while (number);
    serial_bytes(digits + first, sizeof digits - first);
}

static void hexadecimal(uint64_t number) {
    serial_text("0x");
    for (int shift = 60; shift >= 0; shift -= 4) serial_bytes(&"0123456789abcdef"[number >> shift & 15], 1);
}

/* The exception's class (37: an access to data), the address and the instruction. */
void device_fault(uint64_t syndrome, uint64_t address, uint64_t instruction) {
    serial_text("FAULT class ");
    serial_number(syndrome >> 26 & 63);
    serial_text(" address ");
    hexadecimal(address);
    serial_text(" at ");
    hexadecimal(instruction);
    serial_text("\n");
}
