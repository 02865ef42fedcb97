/* What a program says to its host: a byte of text, and its end. On a core these are stores to the host window; built for the machine
   on which it is compiled (host.c) they are calls of the C library. */
#ifndef WINDOW_H
#define WINDOW_H

#include <stddef.h>
#include <stdint.h>

#ifdef __riscv

static inline void put_byte(uint8_t byte) { *(volatile uint8_t *)0xf0000000u = byte; }

static inline void finish(uint32_t code) { *(volatile uint32_t *)0xf0000004u = code; }

#else

void put_byte(uint8_t byte);
void finish(uint32_t code);

#endif

/* Text, a number in decimal digits, and the eight hexadecimal digits of a number. */
void put_text(const char *text);
void put_number(uint32_t number);
void put_hex(uint32_t number);

/* The next number of a sequence that is drawn from a seed. */
uint32_t draw(uint32_t *seed);

#endif
