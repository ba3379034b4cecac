# Fills sixteen words of memory with one value, and adds them up again.
# By hand: 16 * 0x01010101 = 0x10101010; the words before and behind are as they were.
# expect: reg a0 0x10101010
# expect: word 0x400 0x01010101
# expect: word 0x43c 0x01010101
# expect: word 0x3fc 5
# expect: word 0x440 6
        .data 0x3fc
        .word 5
        .data 0x440
        .word 6
        .text
        li      t0, 0x01010101
        li      a1, 0x400
        li      a2, 0x440
fill:   sw      t0, 0(a1)
        addi    a1, a1, 4
        bne     a1, a2, fill
        li      a1, 0x400
sum:    lw      t1, 0(a1)
        add     a0, a0, t1
        addi    a1, a1, 4
        bne     a1, a2, sum
        ecall
