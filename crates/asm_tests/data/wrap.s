# Code across the end of the address space.
        .org 0xfffffff8
back:   addi a0, a0, 1
        j over
over:   bnez a0, back
        jal zero, 0xfffffffc
        auipc a1, 0
