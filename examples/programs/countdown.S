# Nine digits and a line's end, by single stores; the code is one of three half words that a half store wrote.
    .globl main
main:
    lui t0, 0xf0000
    li t1, 9
digit:
    addi t2, t1, '0'
    sb t2, 0(t0)
    addi t1, t1, -1
    bnez t1, digit
    li t2, '\n'
    sb t2, 0(t0)
    la t3, halves
    li t4, -2
    sh t4, 2(t3)
    lhu a0, 2(t3)
    ret
    .bss
    .balign 4
halves:
    .space 8
