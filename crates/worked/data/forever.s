# Goes on for ever: a branch to itself.
here:   beq     zero, zero, here
