# Twelve stores in a row, to memory and to a device, and then loads of the first and the last.
# By hand.
# expect: write 0x80000000 5
# expect: write 0x80000004 6
# expect: write 0x80000000 7
# expect: write 0x80000004 5
# expect: word 0x100 5
# expect: word 0x104 6
# expect: word 0x108 7
# expect: word 0x10c 5
# expect: word 0x110 6
# expect: word 0x114 7
# expect: word 0x118 6
# expect: reg a0 5
# expect: reg a1 6
        lui     t2, 0x80000
        li      t0, 5
        li      t1, 6
        li      t3, 7
        sw      t0, 0x100(zero)
        sw      t0, 0(t2)
        sw      t1, 0x104(zero)
        sw      t1, 4(t2)
        sw      t3, 0x108(zero)
        sw      t3, 0(t2)
        sw      t0, 0x10c(zero)
        sw      t0, 4(t2)
        sw      t1, 0x110(zero)
        sw      t3, 0x114(zero)
        sw      t3, 0x118(zero)
        sw      t1, 0x118(zero)
        lw      a0, 0x100(zero)
        lw      a1, 0x118(zero)
        ecall
