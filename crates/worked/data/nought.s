# A word of noughts is no instruction.
        .word   0
