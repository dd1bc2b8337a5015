/* What start.S, memory.c and serial.c give to a program for the bare machine. */
#ifndef DEVICE_H
#define DEVICE_H

#include <stddef.h>
#include <stdint.h>

/* The second bank of flash: the loader's own code is in the first. */
#define DEVICE_FLASH ((const uint8_t *)0x04000000)

void device_main(void); /* the program: called once, and the machine goes off when it returns */

void *memcpy(void *restrict to, const void *restrict from, size_t length);
void *memset(void *to, int byte, size_t length);

void serial_bytes(const void *bytes, size_t length);
void serial_text(const char *text);
void serial_number(uint64_t number);

#endif
