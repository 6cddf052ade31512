# Adds the numbers from 1 to 100, adds twice the sum to it, and exits with the low byte of that.
        addi t0, x0, 100
        addi t1, x0, 0
again:  add  t1, t1, t0
        addi t0, t0, -1
        bne  t0, x0, again
        addi t2, x0, 2
        mul  t3, t1, t2
        add  a0, t1, t3
        andi a0, a0, 255
        addi a7, x0, 93
        ecall
