/* Products of matrices of whole numbers: one by one, and a power by squares. */
#include "window.h"

#define SIZE 6

static int32_t left[SIZE][SIZE];
static int32_t right[SIZE][SIZE];
static int32_t product[SIZE][SIZE];

static void multiply(int32_t to[SIZE][SIZE], int32_t a[SIZE][SIZE], int32_t b[SIZE][SIZE])
{
    for (int row = 0; row < SIZE; row++) {
        for (int column = 0; column < SIZE; column++) {
            uint32_t sum = 0;
            for (int k = 0; k < SIZE; k++) {
                sum += (uint32_t)a[row][k] * (uint32_t)b[k][column];
            }
            to[row][column] = (int32_t)sum;
        }
    }
}

int main(void)
{
    uint32_t trace = 0;
    for (int row = 0; row < SIZE; row++) {
        for (int column = 0; column < SIZE; column++) {
            left[row][column] = 3 * row - column;
            right[row][column] = row * column + 1;
        }
    }
    multiply(product, left, right);
    multiply(left, product, product);
    for (int row = 0; row < SIZE; row++) {
        for (int column = 0; column < SIZE; column++) {
            put_hex((uint32_t)left[row][column]);
            put_text(column + 1 < SIZE ? " " : "\n");
        }
        trace += (uint32_t)left[row][row];
    }
    return (int)trace;
}
