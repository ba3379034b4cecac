# How many bits are set, by clearing the lowest until none is left.
# From Python: bin(0xdeadbeef).count("1").
# expect: reg a0 24
# expect: reg t0 0
        li      t0, 0xdeadbeef
loop:   addi    t1, t0, -1
        and     t0, t0, t1
        addi    a0, a0, 1
        bnez    t0, loop
        ecall
