# Copies six words of memory.
# By hand: the words are at their new place, and the word behind them is as it was.
# expect: word 0x500 11
# expect: word 0x504 22
# expect: word 0x508 33
# expect: word 0x50c 44
# expect: word 0x510 55
# expect: word 0x514 66
# expect: word 0x518 99
        .data 0x400
        .word 11, 22, 33, 44, 55, 66, 77
        .data 0x518
        .word 99
        .text
        li      a0, 0x500
        li      a1, 0x400
        li      t0, 6
loop:   lw      t1, 0(a1)
        sw      t1, 0(a0)
        addi    a0, a0, 4
        addi    a1, a1, 4
        addi    t0, t0, -1
        bnez    t0, loop
        ecall
