# Asks a device until it answers 1, then reads another, and writes its double back.
# By hand: the answers are 0, 0, 2, 1 and then 21, so four questions, one more, and 42.
# expect: ask 0x80000000
# expect: ask 0x80000000
# expect: ask 0x80000000
# expect: ask 0x80000000
# expect: ask 0x80000004
# expect: write 0x80000004 42
# expect: reg a0 42
        .answers 0, 0, 2, 1, 21, 5
        lui     t2, 0x80000
        li      t1, 1
poll:   lw      t0, 0(t2)
        bne     t0, t1, poll
        lw      a0, 4(t2)
        add     a0, a0, a0
        sw      a0, 4(t2)
        ecall
