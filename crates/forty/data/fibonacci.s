# The 47th number of Fibonacci, the last below 2^32.
# From Python: a, b = 0, 1, and 47 times a, b = b, a + b.
# expect: reg a0 2971215073
        li      a1, 1
        li      t0, 47
loop:   add     t1, a0, a1
        mv      a0, a1
        mv      a1, t1
        addi    t0, t0, -1
        bnez    t0, loop
        ecall
