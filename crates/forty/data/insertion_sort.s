# Insertion sort of eight numbers, as signed.
# From Python: sorted([170, 3, -1, 45, 75, 24, 2, 66]).
# expect: word 0x400 -1
# expect: word 0x404 2
# expect: word 0x408 3
# expect: word 0x40c 24
# expect: word 0x410 45
# expect: word 0x414 66
# expect: word 0x418 75
# expect: word 0x41c 170
        .data 0x400
        .word 170, 3, -1, 45, 75, 24, 2, 66
        .text
        li      s0, 0x400
        li      s1, 0x420
        addi    a0, s0, 4
outer:  lw      t0, 0(a0)
        mv      a1, a0
inner:  beq     a1, s0, place
        lw      t1, -4(a1)
        bge     t0, t1, place
        sw      t1, 0(a1)
        addi    a1, a1, -4
        j       inner
place:  sw      t0, 0(a1)
        addi    a0, a0, 4
        bne     a0, s1, outer
        ecall
