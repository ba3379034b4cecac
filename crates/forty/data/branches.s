# Each branch at the edges: 2^31 - 1 and 2^31, 0 and all ones, and equal numbers. A bit of a0 for each that is taken, the first lowest.
# By hand, with m = 0x7fffffff and n = 0x80000000: blt n m, bltu m n, bge m n, bgeu n m, beq n n, bge n n and bgeu n n are taken
# (bits 0, 1, 2, 3, 4, 8 and 9), and beq m n, bne n n, blt m n, bltu n m, blt n n and bltu n n are not (bits 5, 6, 7, 10, 11 and 12);
# blt of all ones with 0 is taken (bit 13), and bltu is not (bit 14): 31 + 256 + 512 + 8192 = 8991.
# expect: reg a0 8991
        li      s0, 0x7fffffff
        lui     s1, 0x80000
        li      s2, -1
        li      t0, 1
        blt     s1, s0, t_a
        j       b
t_a:    or      a0, a0, t0
b:      slli    t0, t0, 1
        bltu    s0, s1, t_b
        j       c
t_b:    or      a0, a0, t0
c:      slli    t0, t0, 1
        bge     s0, s1, t_c
        j       d
t_c:    or      a0, a0, t0
d:      slli    t0, t0, 1
        bgeu    s1, s0, t_d
        j       e
t_d:    or      a0, a0, t0
e:      slli    t0, t0, 1
        beq     s1, s1, t_e
        j       f
t_e:    or      a0, a0, t0
f:      slli    t0, t0, 1
        beq     s0, s1, wrong
        slli    t0, t0, 1
        bne     s1, s1, wrong
        slli    t0, t0, 1
        blt     s0, s1, wrong
        slli    t0, t0, 1
        bge     s1, s1, t_g
        j       g
t_g:    or      a0, a0, t0
g:      slli    t0, t0, 1
        bgeu    s1, s1, t_h
        j       h
t_h:    or      a0, a0, t0
h:      slli    t0, t0, 1
        bltu    s1, s0, wrong
        slli    t0, t0, 1
        blt     s1, s1, wrong
        slli    t0, t0, 1
        bltu    s1, s1, wrong
        slli    t0, t0, 1
        blt     s2, zero, t_i
        j       i
t_i:    or      a0, a0, t0
i:      slli    t0, t0, 1
        bltu    s2, zero, wrong
        ecall
wrong:  li      a0, -1
        ecall
