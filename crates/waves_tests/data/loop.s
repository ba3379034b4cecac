# Sums 4 to 1, writes the sum to a device, asks a device, stores the answer and loads it again.
        .answers 99
        li      t0, 4
loop:   add     a0, a0, t0
        addi    t0, t0, -1
        bnez    t0, loop
        lui     t2, 0x80000
        sw      a0, 0(t2)
        lw      t1, 4(t2)
        sw      t1, 8(zero)
        lw      a1, 8(zero)
        ecall
