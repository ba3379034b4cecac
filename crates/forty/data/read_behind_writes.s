# A device is read right behind writes to devices, and written right behind reads: all in their order.
# By hand: 3 + 4 = 7.
# expect: write 0x80000000 1
# expect: write 0x80000004 2
# expect: ask 0x80000008
# expect: ask 0x80000008
# expect: write 0x80000000 7
# expect: ask 0x80000000
# expect: reg a0 5
        .answers 3, 4, 5
        lui     t2, 0x80000
        li      t0, 1
        li      t1, 2
        sw      t0, 0(t2)
        sw      t1, 4(t2)
        lw      t3, 8(t2)
        lw      t4, 8(t2)
        add     t3, t3, t4
        sw      t3, 0(t2)
        lw      a0, 0(t2)
        ecall
