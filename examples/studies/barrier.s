# For any number of cores. There are 8 rounds, each of 32 pieces of work, and a core takes the next one by AMOADD. A piece
# is 8 lines of memory: the core adds 1 to the first word of each. Where no piece is left, the cores meet: they wait until
# all pieces of the round are done, and begin the next. Exits with 0 where the last line was added to in each round.
        lui  s0, 32             # of each round, 64 bytes apart: how many pieces are taken, and 16 bytes further, done
        lui  s1, 64             # the lines
        addi s2, x0, 32
        addi s3, x0, 8
        addi s4, x0, 1
take:   amoadd.w t2, s4, (s0)
        bge  t2, s2, meet
        slli t3, t2, 7
        add  t3, t3, s1
        addi t4, x0, 8
line:   lw   t0, 0(t3)
        addi t0, t0, 1
        sw   t0, 0(t3)
        addi t3, t3, 16
        addi t4, t4, -1
        bnez t4, line
        addi t5, s0, 16
        amoadd.w x0, s4, (t5)
        j    take
meet:   lw   t1, 16(s0)
        bne  t1, s2, meet
        addi s0, s0, 64
        addi s3, s3, -1
        bnez s3, take
        lui  t0, 65             # the last line is 16 bytes below
        lw   a0, -16(t0)
        addi a0, a0, -8
        addi a7, x0, 93
        ecall
