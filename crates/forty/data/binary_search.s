# Binary search in eight numbers for one that is there and one that is not.
# From Python: [2, 3, 24, 45, 66, 75, 170, 900].index(75), and 46 is at none: the place where it would stand is 4.
# expect: reg s0 5
# expect: reg s1 4
        .data 0x400
        .word 2, 3, 24, 45, 66, 75, 170, 900
        .text
        li      a0, 75
        call    find
        mv      s0, a1
        li      a0, 46
        call    find
        mv      s1, a1
        ecall
find:   li      a1, 0
        li      a2, 8
loop:   bgeu    a1, a2, done
        add     t0, a1, a2
        srli    t0, t0, 1
        slli    t1, t0, 2
        lw      t2, 0x400(t1)
        bltu    t2, a0, above
        mv      a2, t0
        j       loop
above:  addi    a1, t0, 1
        j       loop
done:   ret
