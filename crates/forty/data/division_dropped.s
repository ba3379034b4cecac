# A division whose result is overwritten at once, one that a branch skips, and one that is kept.
# By hand: 100 / 7 = 14, remainder 2.
# expect: reg a0 1
# expect: reg a1 0
# expect: reg a2 14
# expect: reg a3 2
        li      t0, 100
        li      t1, 7
        divu    a0, t0, t1
        li      a0, 1
        bnez    t0, over
        remu    a1, t0, t1
over:   divu    a2, t0, t1
        remu    a3, t0, t1
        ecall
