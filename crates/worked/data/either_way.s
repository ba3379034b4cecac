# Six times asks a device, and if its answer is not 0, another; writes the sum of the other's answers.
        .answers 1, 10, 0, 1, 20, 0, 0, 1, 30
        lui     t2, 0x80000
        li      t3, 6
loop:   lw      t0, 0(t2)
        beqz    t0, skip
        lw      t1, 4(t2)
        add     a0, a0, t1
skip:   addi    t3, t3, -1
        bnez    t3, loop
        sw      a0, 8(t2)
        ecall
