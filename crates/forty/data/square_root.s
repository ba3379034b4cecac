# Square roots, rounded down, bit by bit.
# From Python: math.isqrt(1000000), math.isqrt(4294967295), math.isqrt(99).
# expect: reg s0 1000
# expect: reg s1 65535
# expect: reg s2 9
        li      a0, 1000000
        call    root
        mv      s0, a1
        li      a0, -1
        call    root
        mv      s1, a1
        li      a0, 99
        call    root
        mv      s2, a1
        ecall
root:   li      a1, 0
        li      t0, 0x8000
loop:   add     t1, a1, t0
        mul     t2, t1, t1
        bgtu    t2, a0, less
        mv      a1, t1
less:   srli    t0, t0, 1
        bnez    t0, loop
        ret
