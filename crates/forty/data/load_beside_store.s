# A load next to a store to its address, before and after it, and two stores and then a load.
# By hand: a0 is what was there before, a1 the store's 5, a2 the second store's 9, a3 another word's 8.
# expect: reg a0 3
# expect: reg a1 5
# expect: reg a2 9
# expect: reg a3 8
# expect: word 0x100 9
        .data 0x100
        .word 3, 8
        .text
        li      t0, 5
        li      t1, 9
        lw      a0, 0x100(zero)
        sw      t0, 0x100(zero)
        lw      a1, 0x100(zero)
        sw      t0, 0x100(zero)
        sw      t1, 0x100(zero)
        lw      a2, 0x100(zero)
        lw      a3, 0x104(zero)
        ecall
