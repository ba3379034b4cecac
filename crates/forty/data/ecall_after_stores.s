# An ecall right behind stores: all of them are made before it stops, and none of those behind it.
# By hand.
# expect: word 0x100 1
# expect: word 0x104 2
# expect: word 0x108 3
# expect: word 0x10c 0
# expect: write 0x80000000 3
        lui     t2, 0x80000
        li      t0, 1
        li      t1, 2
        li      t3, 3
        sw      t0, 0x100(zero)
        sw      t1, 0x104(zero)
        sw      t3, 0x108(zero)
        sw      t3, 0(t2)
        ecall
        sw      t0, 0x10c(zero)
        sw      t0, 4(t2)
