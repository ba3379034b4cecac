# Divides by repeated subtraction, and by divu and remu.
# From Python: divmod(1000, 7) is (142, 6), divmod(4294967295, 3) is (1431655765, 0).
# expect: reg a0 142
# expect: reg a1 6
# expect: reg a2 142
# expect: reg a3 6
# expect: reg a4 1431655765
# expect: reg a5 0
        li      a1, 1000
        li      t0, 7
        divu    a2, a1, t0
        remu    a3, a1, t0
loop:   bltu    a1, t0, done
        sub     a1, a1, t0
        addi    a0, a0, 1
        j       loop
done:   li      t1, -1
        li      t0, 3
        divu    a4, t1, t0
        remu    a5, t1, t0
        ecall
