# For two cores. Each adds 2 to a word, 20 times, by LR and SC: 80 in all, the letter P. Core 0 prints it.
        lui  s0, 1
        addi s2, x0, 20
again:  lr.w t0, (s0)
        addi t0, t0, 2
        sc.w t1, t0, (s0)
        bnez t1, again
        addi s2, s2, -1
        bnez s2, again
        addi t0, x0, 1
        addi t3, s0, 64
        amoadd.w x0, t0, (t3)
        bnez a0, done
        addi t4, x0, 2
wait:   lw   t1, 64(s0)
        bne  t1, t4, wait
        lw   a0, 0(s0)
        addi a7, x0, 1
        ecall
done:   addi a7, x0, 93
        addi a0, x0, 0
        ecall
