# A store to an address that is not a multiple of 4 stops the core, and changes nothing.
# By hand.
# expect: stop misaligned
# expect: word 0x100 9
# expect: word 0x104 0
# expect: reg a0 0
        li      t0, 9
        sw      t0, 0x100(zero)
        li      t1, 0x100
        sw      t1, 2(t1)
        li      a0, 1
        sw      t1, 4(t1)
        ecall
