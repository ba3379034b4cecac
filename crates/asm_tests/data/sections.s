// Labels, comments, sections, data, answers and a start.
        .start main ; not the first code
        .org 0x100
helper: seqz a0, a0     # a comment
        ret
main: entry:
        la t0, table
        li t1, table
        lw t2, %lo(table)(zero) // another
        call helper
        jal helper
        jalr t1
        jalr ra, t1, 4
        .word 0, main, 0xffffffff, -1
        .data 0x2000
table:  .word 1, 2, table
        .text
        ecall
        .data
more:   .word more
        .answers 10, 0xff
        .answers -2147483648, main
        .data 0x7ffffffc
        .word 99
