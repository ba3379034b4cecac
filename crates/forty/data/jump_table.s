# Calls three functions by a table of their addresses, in the order 2, 0, 1, 2.
# By hand, from 0: 0 + 5 = 5, 5 + 1 = 6, 6 * 3 = 18, 18 + 5 = 23.
# expect: reg a0 23
        .data 0x400
        .word plus_one, triple, plus_five
        .data 0x420
        .word 2, 0, 1, 2
        .text
        li      s0, 0x420
        li      s1, 4
loop:   lw      t0, 0(s0)
        slli    t0, t0, 2
        lw      t1, 0x400(t0)
        jalr    t1
        addi    s0, s0, 4
        addi    s1, s1, -1
        bnez    s1, loop
        ecall
plus_one: addi  a0, a0, 1
        ret
triple: add     t2, a0, a0
        add     a0, a0, t2
        ret
plus_five: addi a0, a0, 5
        ret
