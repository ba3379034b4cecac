# The product of two 3 by 3 matrices.
# From Python: A = [[1,2,3],[4,5,6],[7,8,9]]; B = [[9,8,7],[6,5,4],[3,2,1]];
# [[sum(A[i][k] * B[k][j] for k in range(3)) for j in range(3)] for i in range(3)].
# expect: word 0x500 30
# expect: word 0x504 24
# expect: word 0x508 18
# expect: word 0x50c 84
# expect: word 0x510 69
# expect: word 0x514 54
# expect: word 0x518 138
# expect: word 0x51c 114
# expect: word 0x520 90
        .data 0x400
        .word 1, 2, 3, 4, 5, 6, 7, 8, 9
        .data 0x440
        .word 9, 8, 7, 6, 5, 4, 3, 2, 1
        .text
        li      a0, 0x400
        li      a2, 0x500
        li      t0, 3
row:    li      a1, 0x440
        li      t1, 3
column: lw      t2, 0(a0)
        lw      t3, 0(a1)
        mul     s0, t2, t3
        lw      t2, 4(a0)
        lw      t3, 12(a1)
        mul     t4, t2, t3
        add     s0, s0, t4
        lw      t2, 8(a0)
        lw      t3, 24(a1)
        mul     t4, t2, t3
        add     s0, s0, t4
        sw      s0, 0(a2)
        addi    a2, a2, 4
        addi    a1, a1, 4
        addi    t1, t1, -1
        bnez    t1, column
        addi    a0, a0, 12
        addi    t0, t0, -1
        bnez    t0, row
        ecall
