# Without end: each core adds to a word of its own, and reads core 0's. Cores 0 to 3 have their words in one line, cores
# 4 to 7 in the next.
        lui  s0, 16
        slli t0, a0, 2
        add  s1, s0, t0
again:  lw   t1, 0(s1)
        addi t1, t1, 1
        sw   t1, 0(s1)
        lw   t2, 0(s0)
        add  t2, t2, t1
        j    again
