# By 0 the quotient is all ones, and the remainder is the dividend.
        li      a0, 7
        divu    a1, a0, zero
        remu    a2, a0, zero
        ecall
