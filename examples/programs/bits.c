/* Bits of drawn numbers, each counted and turned round in several ways that must agree. */
#include "window.h"

static uint32_t count_loop(uint32_t word)
{
    uint32_t count = 0;
    for (; word != 0; word &= word - 1) {
        count++;
    }
    return count;
}

static uint32_t count_halves(uint32_t word)
{
    word = (word & 0x55555555u) + (word >> 1 & 0x55555555u);
    word = (word & 0x33333333u) + (word >> 2 & 0x33333333u);
    word = (word & 0x0f0f0f0fu) + (word >> 4 & 0x0f0f0f0fu);
    word = (word & 0x00ff00ffu) + (word >> 8 & 0x00ff00ffu);
    return (word & 0xffffu) + (word >> 16);
}

static uint32_t turn_loop(uint32_t word)
{
    uint32_t turned = 0;
    for (int k = 0; k < 32; k++) {
        turned = turned << 1 | (word & 1);
        word >>= 1;
    }
    return turned;
}

static uint32_t turn_halves(uint32_t word)
{
    word = (word & 0x55555555u) << 1 | (word >> 1 & 0x55555555u);
    word = (word & 0x33333333u) << 2 | (word >> 2 & 0x33333333u);
    word = (word & 0x0f0f0f0fu) << 4 | (word >> 4 & 0x0f0f0f0fu);
    word = (word & 0x00ff00ffu) << 8 | (word >> 8 & 0x00ff00ffu);
    return word << 16 | word >> 16;
}

static uint32_t zeros_ahead(uint32_t word)
{
    uint32_t zeros = 0;
    while (zeros < 32 && (int32_t)word >= 0) {
        word <<= 1;
        zeros++;
    }
    return zeros;
}

int main(void)
{
    uint32_t seed = 7;
    uint32_t ones = 0;
    uint32_t mixed = 0;
    uint32_t ahead = 0;
    for (int k = 0; k < 24; k++) {
        uint32_t word = draw(&seed) >> k;
        if (count_loop(word) != count_halves(word) || turn_loop(word) != turn_halves(word)) {
            put_text("not alike\n");
        }
        ones += count_halves(word);
        mixed ^= turn_halves(word);
        ahead += zeros_ahead(word);
    }
    put_number(ones);
    put_text(" ");
    put_hex(mixed);
    put_text(" ");
    put_number(ahead);
    put_text("\n");
    return (int)mixed;
}
