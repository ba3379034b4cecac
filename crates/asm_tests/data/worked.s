# Adds 4 + 3 + 2 + 1 to a0, writes it to a device, asks the device, and keeps its answer.
        addi x5, x0, 4
loop:   add x10, x10, x5
        addi x5, x5, -1
        bne x5, x0, loop
        lui x7, 0x80000
        sw x10, 0(x7)
        lw x6, 4(x7)
        sw x6, 8(x0)
        lw x11, 8(x0)
        ecall
.answers 7
