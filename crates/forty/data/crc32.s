# CRC-32 of the eight bytes "12345678", as two words with the first byte lowest.
# From Python: zlib.crc32(b"12345678").
# expect: reg a0 2598427311
        .data 0x400
        .word 0x34333231, 0x38373635
        .text
        li      s0, 0xedb88320
        li      a0, -1
        li      a1, 0x400
        li      t0, 2
word:   lw      t1, 0(a1)
        xor     a0, a0, t1
        li      t2, 32
bit:    andi    t3, a0, 1
        srli    a0, a0, 1
        beqz    t3, even
        xor     a0, a0, s0
even:   addi    t2, t2, -1
        bnez    t2, bit
        addi    a1, a1, 4
        addi    t0, t0, -1
        bnez    t0, word
        not     a0, a0
        ecall
