# A device is read behind a branch that is not taken, and is not read behind one that is.
# By hand: one question only, and its answer 11 is the first.
# expect: ask 0x80000000
# expect: reg a0 11
# expect: reg a1 0
        .answers 11, 22
        lui     t2, 0x80000
        li      t0, 1
        beqz    t0, skip
        lw      a0, 0(t2)
skip:   bnez    t0, end
        lw      a1, 4(t2)
end:    ecall
