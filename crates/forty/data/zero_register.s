# x0 is written by a sum, a load, a device, a division and a jump, and reads as 0 after each.
# By hand: each register that is written gets its own small number alone.
# expect: ask 0x80000000
# expect: reg a0 1
# expect: reg a1 2
# expect: reg a2 3
# expect: reg a3 4
# expect: reg a4 5
        .answers 99
        .data 0x100
        .word 88
        .text
        lui     t2, 0x80000
        li      t0, 7
        addi    zero, t0, 5
        addi    a0, zero, 1
        lw      zero, 0x100(zero)
        addi    a1, zero, 2
        lw      zero, 0(t2)
        addi    a2, zero, 3
        divu    zero, t0, t0
        addi    a3, zero, 4
        jal     zero, next
next:   addi    a4, zero, 5
        ecall
