# The greatest common divisor by Euclid's remainders, twice.
# From Python: math.gcd(1071, 462), math.gcd(3528, 3780).
# expect: reg s0 21
# expect: reg s1 252
        li      a0, 1071
        li      a1, 462
        call    gcd
        mv      s0, a0
        li      a0, 3528
        li      a1, 3780
        call    gcd
        mv      s1, a0
        ecall
gcd:    beqz    a1, done
        remu    t0, a0, a1
        mv      a0, a1
        mv      a1, t0
        j       gcd
done:   ret
