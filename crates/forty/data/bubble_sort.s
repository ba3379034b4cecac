# Bubble sort of eight numbers, as unsigned.
# From Python: sorted([170, 3, 4294967295, 45, 75, 24, 2, 66]).
# expect: word 0x400 2
# expect: word 0x404 3
# expect: word 0x408 24
# expect: word 0x40c 45
# expect: word 0x410 66
# expect: word 0x414 75
# expect: word 0x418 170
# expect: word 0x41c 4294967295
        .data 0x400
        .word 170, 3, 4294967295, 45, 75, 24, 2, 66
        .text
        li      t0, 7
round:  li      a0, 0x400
        mv      t1, t0
inner:  lw      t2, 0(a0)
        lw      t3, 4(a0)
        bgeu    t3, t2, sorted
        sw      t3, 0(a0)
        sw      t2, 4(a0)
sorted: addi    a0, a0, 4
        addi    t1, t1, -1
        bnez    t1, inner
        addi    t0, t0, -1
        bnez    t0, round
        ecall
