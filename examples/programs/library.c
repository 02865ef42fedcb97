/* What programs share. */
#include "window.h"

void put_text(const char *text)
{
    while (*text != 0) {
        put_byte((uint8_t)*text++);
    }
}

void put_number(uint32_t number)
{
    char digits[10];
    int count = 0;
    do {
        digits[count++] = (char)('0' + number % 10);
        number /= 10;
    } while (number != 0);
    while (count > 0) {
        put_byte((uint8_t)digits[--count]);
    }
}

void put_hex(uint32_t number)
{
    for (int shift = 28; shift >= 0; shift -= 4) {
        put_byte((uint8_t)"0123456789abcdef"[number >> shift & 15]);
    }
}

uint32_t draw(uint32_t *seed)
{
    uint32_t next = *seed;
    next ^= next << 13;
    next ^= next >> 17;
    next ^= next << 5;
    *seed = next;
    return next;
}

#ifdef __riscv

/* The compiler may call these for copies and first values, so it may not make calls of them out of their own loops. */
#define OWN_LOOP __attribute__((optimize("no-tree-loop-distribute-patterns")))

OWN_LOOP void *memcpy(void *restrict to, const void *restrict from, size_t count)
{
    uint8_t *target = to;
    const uint8_t *source = from;
    while (count-- > 0) {
        *target++ = *source++;
    }
    return to;
}

OWN_LOOP void *memset(void *at, int byte, size_t count)
{
    uint8_t *target = at;
    while (count-- > 0) {
        *target++ = (uint8_t)byte;
    }
    return at;
}

#endif
