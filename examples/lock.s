# For four cores. Core k adds k + 1 to a sum, nine times, under a lock that is taken by a swap: 90 in all, the letter Z.
# Core 0 waits for the others and prints it.
        lui  s0, 32             # the lock; the sum lies 16 bytes further, and the number of cores that are done 32
        addi s1, a0, 1
        addi s2, x0, 9
again:  lw   t1, 0(s0)          # look first, and swap only where the lock looks free
        bnez t1, again
        addi t0, x0, 1
        amoswap.w t1, t0, (s0)
        bnez t1, again
        lw   t2, 16(s0)
        add  t2, t2, s1
        sw   t2, 16(s0)
        amoswap.w x0, x0, (s0)  # the lock is given back
        addi s2, s2, -1
        bnez s2, again
        addi t0, x0, 1
        addi t3, s0, 32
        amoadd.w x0, t0, (t3)
        bne  s1, t0, done
        addi t4, x0, 4
wait:   lw   t1, 32(s0)
        bne  t1, t4, wait
        lw   a0, 16(s0)
        addi a7, x0, 1
        ecall
done:   addi a7, x0, 93
        addi a0, x0, 0
        ecall
