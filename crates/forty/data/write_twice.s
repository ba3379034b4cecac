# One register is written twice in a row: by a load or a device and then by a sum, and the other way round.
# By hand: the later write stands, and what reads between gets the earlier.
# expect: ask 0x80000000
# expect: ask 0x80000000
# expect: reg a0 2
# expect: reg a1 77
# expect: reg a2 4
# expect: reg a3 41
# expect: reg a4 31
        .answers 50, 40
        .data 0x100
        .word 77, 30
        .text
        lui     t2, 0x80000
        lw      a0, 0x100(zero)
        li      a0, 2
        li      a1, 3
        lw      a1, 0x100(zero)
        lw      a2, 0(t2)
        li      a2, 4
        lw      a3, 0(t2)
        addi    a3, a3, 1
        lw      a4, 0x104(zero)
        addi    a4, a4, 1
        ecall
