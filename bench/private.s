# Without end: each core loads and stores a word in each of two lines of its own.
        lui  s0, 16
        slli t0, a0, 6
        add  s0, s0, t0
again:  lw   t1, 0(s0)
        addi t1, t1, 1
        sw   t1, 0(s0)
        lw   t2, 16(s0)
        add  t2, t2, t1
        sw   t2, 16(s0)
        j    again
