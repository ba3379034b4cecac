# A jump to an address that is 2 past a multiple of 4 stops the core; jalr clears the lowest bit alone, so one to 1 past is made.
# By hand: the jump that is misaligned does not write its return address.
# expect: stop misaligned
# expect: reg a0 1
# expect: reg a1 0
# expect: reg s0 12
        la      t0, there
        jalr    s0, 1(t0)
        li      a1, 1
there:  li      a0, 1
        jalr    s1, 2(t0)
        li      a1, 2
        ecall
