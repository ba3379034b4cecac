# Calls within calls, four deep, each with its return address on the stack.
# By hand: f(x) = g(x) + 1, g(x) = h(x) * 2, h(x) = k(x) + 10, k(x) = x * x; f(5) = 71, f(7) = 119.
# expect: reg s0 71
# expect: reg s1 119
# expect: reg sp 0x800
        li      sp, 0x800
        li      a0, 5
        call    f
        mv      s0, a0
        li      a0, 7
        call    f
        mv      s1, a0
        ecall
f:      addi    sp, sp, -4
        sw      ra, 0(sp)
        call    g
        addi    a0, a0, 1
        lw      ra, 0(sp)
        addi    sp, sp, 4
        ret
g:      addi    sp, sp, -4
        sw      ra, 0(sp)
        call    h
        slli    a0, a0, 1
        lw      ra, 0(sp)
        addi    sp, sp, 4
        ret
h:      addi    sp, sp, -4
        sw      ra, 0(sp)
        call    k
        addi    a0, a0, 10
        lw      ra, 0(sp)
        addi    sp, sp, 4
        ret
k:      mul     a0, a0, a0
        ret
