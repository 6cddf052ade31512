# Exits with 0.
        addi a7, x0, 93
        addi a0, x0, 0
        ecall
