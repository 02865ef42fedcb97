/* A program on the machine on which it is compiled, whose main is named program_main there: the window's bytes go to standard output, and
   the exit's code to standard error, as `run` tells it. */
#include <stdio.h>
#include <stdlib.h>

#include "window.h"

int program_main(void);

void put_byte(uint8_t byte) { putchar(byte); }

void finish(uint32_t code)
{
    fprintf(stderr, "exit code=%08x\n", code);
    exit(0);
}

int main(void)
{
    finish((uint32_t)program_main());
    return 0;
}
