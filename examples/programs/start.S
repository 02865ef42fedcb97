# Where a program begins: it sets the stack, clears what has no first value, calls main, and stores what main gave as the exit's code.
    .section .text.start
    .globl _start
_start:
    la sp, stack_top
    la t0, bss_start
    la t1, bss_end
clear:
    bgeu t0, t1, cleared
    sw zero, 0(t0)
    addi t0, t0, 4
    j clear
cleared:
    call main
    lui t0, 0xf0000
    sw a0, 4(t0)
halt:
    j halt
