# A product of 64 bits by mul and mulhu, and the same one from its halves by sums and shifts.
# From Python: hex(0xdeadbeef * 0xcafebabe) is 0xb092ab7b88cf5b62.
# expect: reg a0 0x88cf5b62
# expect: reg a1 0xb092ab7b
# expect: reg a2 0x88cf5b62
# expect: reg a3 0xb092ab7b
        li      t0, 0xdeadbeef
        li      t1, 0xcafebabe
        mul     a0, t0, t1
        mulhu   a1, t0, t1
        li      t2, 32
        mv      t3, t0
loop:   slli    t5, a2, 1
        srli    t6, a2, 31
        slli    a3, a3, 1
        or      a3, a3, t6
        mv      a2, t5
        bgez    t1, next
        add     a2, a2, t3
        sltu    t6, a2, t3
        add     a3, a3, t6
next:   slli    t1, t1, 1
        addi    t2, t2, -1
        bnez    t2, loop
        ecall
