# A loop of a hundred loads behind a store to the word that they load.
# By hand: 100 * 21 = 2100.
# expect: reg a0 2100
# expect: reg t1 0
        li      t0, 21
        li      t1, 100
        sw      t0, 0x200(zero)
loop:   lw      t2, 0x200(zero)
        add     a0, a0, t2
        addi    t1, t1, -1
        bnez    t1, loop
        ecall
