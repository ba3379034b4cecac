# Code at the end of the addresses, which runs on at 0, jumps back to the end, and is left by a branch forward over the end.
# By hand: a0 counts three passes at the end and a1 three at the start; auipc at 0xfffffff8 gives that address.
# expect: reg a0 3
# expect: reg a1 3
# expect: reg a2 0xfffffff8
# expect: reg ra 12
        .start 0xfffffff4
        .org 0
        addi    a1, a1, 1
        li      t0, 3
        jal     ra, back
        .org 0x20
out:    ecall
        .org 0xffffffec
back:   nop
        beq     a0, t0, out
        addi    a0, a0, 1
        auipc   a2, 0
        nop
