# A word that is read at an address which is no multiple of 4: a trap, which stops the core.
    .globl main
    .globl trap_here
main:
    lui t0, 0xf0000
    li t1, 'm'
    sb t1, 0(t0)
    li t1, '\n'
    sb t1, 0(t0)
    la t2, word
trap_here:
    lw a0, 1(t2)
    ret
    .data
    .balign 4
word:
    .word 0x01020304, 0x05060708
