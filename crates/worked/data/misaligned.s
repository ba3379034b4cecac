# A load from an address that is not a multiple of 4.
        lw      t0, 2(zero)
        ecall
