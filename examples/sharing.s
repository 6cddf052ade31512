# For four cores. Each counts to 16 in a word of its own, but all four words lie in one line: the line goes from core to
# core. Core 0 waits for the others, adds the words and prints the sum, 64, the character @.
        lui  s0, 1
        slli t0, a0, 2
        add  s1, s0, t0
        addi s2, x0, 16
again:  lw   t1, 0(s1)
        addi t1, t1, 1
        sw   t1, 0(s1)
        addi s2, s2, -1
        bnez s2, again
        addi t0, x0, 1
        addi t3, s0, 64
        amoadd.w x0, t0, (t3)
        bnez a0, done
        addi t4, x0, 4
wait:   lw   t1, 64(s0)
        bne  t1, t4, wait
        lw   t0, 0(s0)
        lw   t1, 4(s0)
        add  a0, t0, t1
        lw   t0, 8(s0)
        add  a0, a0, t0
        lw   t0, 12(s0)
        add  a0, a0, t0
        addi a7, x0, 1
        ecall
done:   addi a7, x0, 93
        addi a0, x0, 0
        ecall
