# A word that is no instruction behind stores: they are made, it stops there, and what is behind is not done.
# By hand.
# expect: stop illegal
# expect: word 0x100 1
# expect: word 0x104 2
# expect: word 0x108 0
# expect: write 0x80000000 2
# expect: reg a0 0
        li      t0, 1
        li      t1, 2
        lui     t2, 0x80000
        sw      t0, 0x100(zero)
        sw      t1, 0x104(zero)
        sw      t1, 0(t2)
        .word   0xffffffff
        li      a0, 1
        sw      t0, 0x108(zero)
        ecall
