/* Numbers below 1,000 that no square above 1 divides: multiples of squares are crossed out. */
#include "window.h"

#define LIMIT 1000u

static uint8_t crossed[LIMIT];

int main(void)
{
    for (uint32_t root = 2; root * root < LIMIT; root++) {
        uint32_t square = root * root;
        for (uint32_t at = square; at < LIMIT; at += square) {
            crossed[at] = 1;
        }
    }
    uint32_t count = 0;
    uint32_t last = 0;
    for (uint32_t at = 1; at < LIMIT; at++) {
        if (!crossed[at]) {
            count++;
            last = at;
        }
    }
    put_number(count);
    put_text(" numbers, the last ");
    put_number(last);
    put_text("\n");
    return (int)count;
}
