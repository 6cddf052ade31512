# For any number of cores. There are 64 pieces of work, and a core takes the next one under a lock. A piece is 16 lines
# of memory that nobody read before: the core adds up their first words. Exits with 0.
        lui  s0, 32             # the lock; the number of the next piece lies 16 bytes further
        lui  s1, 64             # the lines
        addi s2, x0, 64
take:   lw   t1, 0(s0)          # look first, and swap only where the lock looks free
        bnez t1, take
        addi t0, x0, 1
        amoswap.w t1, t0, (s0)
        bnez t1, take
        lw   t2, 16(s0)
        addi t3, t2, 1
        sw   t3, 16(s0)
        amoswap.w x0, x0, (s0)  # the lock is given back
        bge  t2, s2, done
        slli t3, t2, 8
        add  t3, t3, s1
        addi t4, x0, 16
line:   lw   t0, 0(t3)
        add  t5, t5, t0
        addi t3, t3, 16
        addi t4, t4, -1
        bnez t4, line
        j    take
done:   addi a7, x0, 93
        addi a0, x0, 0
        ecall
