/* Conway's cells on a torus of 8 by 8: a glider over some generations, a row as the bits of a byte. */
#include "window.h"

#define ROWS 8

static uint8_t cells[ROWS];

static int bit(uint8_t row, int column) { return row >> (column & 7) & 1; }

static void step(void)
{
    uint8_t next[ROWS];
    for (int row = 0; row < ROWS; row++) {
        uint8_t up = cells[(row + ROWS - 1) % ROWS];
        uint8_t same = cells[row];
        uint8_t down = cells[(row + 1) % ROWS];
        uint8_t made = 0;
        for (int column = 0; column < 8; column++) {
            int count = bit(same, column - 1) + bit(same, column + 1);
            for (int side = -1; side <= 1; side++) {
                count += bit(up, column + side) + bit(down, column + side);
            }
            if (count == 3 || (count == 2 && bit(same, column))) {
                made |= (uint8_t)(1 << column);
            }
        }
        next[row] = made;
    }
    for (int row = 0; row < ROWS; row++) {
        cells[row] = next[row];
    }
}

int main(void)
{
    cells[0] = 2;
    cells[1] = 4;
    cells[2] = 7;
    for (int generation = 0; generation < 4; generation++) {
        step();
    }
    for (int row = 0; row < ROWS; row++) {
        for (int column = 0; column < 8; column++) {
            put_byte(bit(cells[row], column) ? '#' : '.');
        }
        put_byte('\n');
    }
    return 0;
}
