# Sums with lui and auipc, which go round at 2^32.
# By hand: 0xfffff000 + 0x1fff = 0xfff; auipc at 16 gives 16, at 20 with 0xfffff gives 20 - 4096; lui takes the upper 20 bits.
# expect: reg a0 0xfffff000
# expect: reg a1 0xfff
# expect: reg a2 16
# expect: reg a3 0xfffff014
# expect: reg a4 4092
# expect: reg a5 0x7fffffff
        lui     a0, 0xfffff
        li      t0, 0x1fff
        add     a1, a0, t0
        auipc   a2, 0
        auipc   a3, 0xfffff
        sub     a4, a2, a3
        lui     a5, 0x80000
        addi    a5, a5, -1
        ecall
