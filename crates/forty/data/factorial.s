# Factorial of 10 by recursion, with a stack.
# From Python: math.factorial(10). The stack pointer is back where it was.
# expect: reg a0 3628800
# expect: reg sp 0x1000
        li      sp, 0x1000
        li      a0, 10
        call    fact
        ecall
fact:   beqz    a0, one
        addi    sp, sp, -8
        sw      ra, 0(sp)
        sw      a0, 4(sp)
        addi    a0, a0, -1
        call    fact
        lw      t0, 4(sp)
        lw      ra, 0(sp)
        addi    sp, sp, 8
        mul     a0, a0, t0
        ret
one:    li      a0, 1
        ret
