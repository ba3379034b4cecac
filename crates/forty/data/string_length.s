# The length of a text that ends with a byte 0, read by words, its first byte lowest.
# From Python: len("hello, world").
# expect: reg a0 12
        .data 0x400
        .word 0x6c6c6568, 0x77202c6f, 0x646c726f, 0
        .text
        li      a1, 0x400
word:   lw      t0, 0(a1)
        li      t1, 4
byte:   andi    t2, t0, 255
        beqz    t2, end
        addi    a0, a0, 1
        srli    t0, t0, 8
        addi    t1, t1, -1
        bnez    t1, byte
        addi    a1, a1, 4
        j       word
end:    ecall
