# For three cores, which meet three times. In round k core k prints the letter a plus its number, and then comes to the
# meeting: abc.
        lui  s0, 1
        addi t3, s0, 32         # how many arrivals there were
        mv   s1, a0
        addi s2, x0, 3
        addi s3, x0, 0
        addi s4, x0, 1
        addi s6, x0, 0
round:  bne  s1, s3, meet
        addi a0, s1, 97
        addi a7, x0, 1
        ecall
meet:   amoadd.w x0, s4, (t3)
        addi s6, s6, 3
wait:   lw   t1, 0(t3)
        bltu t1, s6, wait
        addi s3, s3, 1
        bne  s3, s2, round
        addi a7, x0, 93
        addi a0, x0, 0
        ecall
