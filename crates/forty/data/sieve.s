# The sieve of Eratosthenes below 100: how many primes, and their sum.
# From Python: p = [n for n in range(2, 100) if all(n % d for d in range(2, n))]; len(p), sum(p).
# expect: reg a0 25
# expect: reg a1 1060
# expect: word 0x584 0
# expect: word 0x588 1
        li      s0, 0x400
        li      s1, 100
        li      t6, 1
        li      t0, 2
next:   slli    t1, t0, 2
        add     t1, t1, s0
        lw      t2, 0(t1)
        bnez    t2, crossed
        addi    a0, a0, 1
        add     a1, a1, t0
        mul     t3, t0, t0
cross:  bgeu    t3, s1, crossed
        slli    t4, t3, 2
        add     t4, t4, s0
        sw      t6, 0(t4)
        add     t3, t3, t0
        j       cross
crossed: addi   t0, t0, 1
        bne     t0, s1, next
        ecall
