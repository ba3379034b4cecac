# A store behind a branch that is taken is not made; the one at the branch's target is.
# By hand: 0x104 and the device are never written.
# expect: word 0x100 7
# expect: word 0x104 0
        li      t0, 7
        lui     t2, 0x80000
        beq     t0, t0, over
        sw      t0, 0x104(zero)
        sw      t0, 0(t2)
over:   sw      t0, 0x100(zero)
        ecall
