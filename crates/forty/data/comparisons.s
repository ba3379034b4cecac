# slt, sltu, slti and sltiu at the edges: 2^31 - 1 and 2^31, all ones and 0.
# By hand: as signed numbers 2^31 is the least, and an immediate of -1 is all ones for sltiu too.
# expect: reg a0 1
# expect: reg a1 0
# expect: reg a2 1
# expect: reg a3 0
# expect: reg a4 1
# expect: reg a5 1
# expect: reg a6 0
# expect: reg a7 0
        li      s0, 0x7fffffff
        lui     s1, 0x80000
        li      s2, -1
        slt     a0, s1, s0
        slt     a1, s0, s1
        sltu    a2, s0, s1
        sltu    a3, s1, s0
        slti    a4, s2, 0
        sltiu   a5, s0, -1
        slti    a6, s0, -1
        sltiu   a7, s2, -1
        ecall
