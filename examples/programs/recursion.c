/* Calls of functions by themselves: Fibonacci numbers, Ackermann's function, and a tower that is moved. */
#include "window.h"

static uint32_t fibonacci(uint32_t n) { return n < 2 ? n : fibonacci(n - 1) + fibonacci(n - 2); }

static uint32_t ackermann(uint32_t m, uint32_t n)
{
    if (m == 0) {
        return n + 1;
    }
    return n == 0 ? ackermann(m - 1, 1) : ackermann(m - 1, ackermann(m, n - 1));
}

static uint32_t moves;

static void move(int disks, int from, int to)
{
    if (disks > 0) {
        int other = 3 - from - to;
        move(disks - 1, from, other);
        moves++;
        move(disks - 1, other, to);
    }
}

int main(void)
{
    put_number(fibonacci(15));
    put_text(" ");
    put_number(ackermann(2, 6));
    move(6, 0, 2);
    put_text(" ");
    put_number(moves);
    put_text("\n");
    return -1;
}
