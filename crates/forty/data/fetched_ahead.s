# What is fetched behind a jump is thrown away: stores, a device's read, an ecall, a word that is no instruction.
# By hand: two jumps and a call; only a0 and ra are written, and no word.
# expect: reg a0 6
# expect: reg a1 0
# expect: word 0x100 0
        li      a0, 1
        j       one
        li      a1, 1
        sw      a0, 0x100(zero)
        ecall
one:    addi    a0, a0, 2
        j       two
        .word   0
        lui     t2, 0x80000
        lw      a1, 0(t2)
two:    call    three
        ecall
        sw      a0, 0x100(zero)
three:  addi    a0, a0, 3
        ret
        .word   0xffffffff
