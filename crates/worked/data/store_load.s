# A hundred times stores a number and at once loads it from the same address; writes the sum, 5050, to a device.
        li      t0, 100
loop:   sw      t0, 64(zero)
        lw      t1, 64(zero)
        add     a0, a0, t1
        addi    t0, t0, -1
        bnez    t0, loop
        lui     t2, 0x80000
        sw      a0, 0(t2)
        ecall
