# Without end: multiplications, which take 3 cycles each, and divisions, which take 16.
again:  addi  t0, t0, 3
        mul   t1, t0, t0
        mulhu t2, t0, t1
        divu  t3, t1, t0
        remu  t4, t1, t0
        mulh  t5, t2, t1
        j     again
