# The sum of a linked list of five: each node has a value and the address of the next, 0 at the end.
# By hand: 10 + 20 + 30 + 40 + 50 = 150.
# expect: reg a0 150
# expect: reg a1 5
        .data 0x400
        .word 10, 0x420
        .data 0x410
        .word 30, 0x430
        .data 0x420
        .word 20, 0x410
        .data 0x430
        .word 40, 0x408
        .data 0x408
        .word 50, 0
        .text
        li      t0, 0x400
loop:   lw      t1, 0(t0)
        add     a0, a0, t1
        addi    a1, a1, 1
        lw      t0, 4(t0)
        bnez    t0, loop
        ecall
