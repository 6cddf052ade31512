# Without end, in registers alone: nine instructions and a jump.
again:  addi t0, t0, 1
        add  t2, t0, t1
        xor  t1, t2, t0
        sub  t3, t2, t0
        addi t4, t3, -3
        or   t5, t4, t1
        and  t6, t5, t2
        sltu s2, t1, t0
        addi t1, t1, 7
        j    again
