# Each core stores its number to the same word, and exits with 0.
        lui  s0, 1
        sw   a0, 0(s0)
        addi a7, x0, 93
        addi a0, x0, 0
        ecall
