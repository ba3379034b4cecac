# A sum of 64 bits from two words each, with a carry between them and one out at the top.
# From Python: hex(0x89abcdef01234567 + 0x7fedcba9fedcba99) is 0x10999999900000000.
# expect: reg a0 0
# expect: reg a1 0x09999999
# expect: reg a2 1
        li      t0, 0x01234567
        li      t1, 0x89abcdef
        li      t2, 0xfedcba99
        li      t3, 0x7fedcba9
        add     a0, t0, t2
        sltu    t4, a0, t0
        add     a1, t1, t3
        sltu    a2, a1, t1
        add     a1, a1, t4
        sltu    t5, a1, t4
        or      a2, a2, t5
        ecall
