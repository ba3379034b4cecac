# Shifts by 0 and by 31, and by 32 and 63 in a register, of which the low five bits count.
# From Python, with x = 0x80000001: x << 31 & 0xffffffff, x >> 31, and (x - 2**32) >> 31 & 0xffffffff.
# expect: reg a0 0x80000001
# expect: reg a1 0x80000001
# expect: reg a2 0x80000001
# expect: reg a3 0x80000000
# expect: reg a4 1
# expect: reg a5 0xffffffff
# expect: reg s0 0x80000001
# expect: reg s1 0x80000000
# expect: reg s2 1
# expect: reg s3 0xffffffff
        li      t0, 0x80000001
        li      t1, 32
        li      t2, 63
        slli    a0, t0, 0
        srli    a1, t0, 0
        srai    a2, t0, 0
        slli    a3, t0, 31
        srli    a4, t0, 31
        srai    a5, t0, 31
        sll     s0, t0, t1
        sll     s1, t0, t2
        srl     s2, t0, t2
        sra     s3, t0, t2
        ecall
