# The product of two matrices of 16 rows of 16 words: c = a b. Each matrix takes 64 lines. The four lines of a row of a
# are read for each column of b; a column of b has a word in every fourth line of b, and the next three columns have
# theirs in the same lines. Exits with 0 where the last word of c is right, 504.
        lui  s0, 16             # a; b lies 1024 bytes further, and c behind it
        addi s1, s0, 1024
        addi s2, s1, 1024
        addi t0, x0, 0
        addi t6, x0, 256
fill:   slli t1, t0, 2          # word k of a is k mod 8, and word k of b is the number of its row
        add  t2, s0, t1
        andi t3, t0, 7
        sw   t3, 0(t2)
        add  t2, s1, t1
        srli t3, t0, 4
        sw   t3, 0(t2)
        addi t0, t0, 1
        bne  t0, t6, fill
        addi s3, x0, 0          # where the row of a begins in it
row:    addi s4, x0, 0          # where the column of b does
column: add  t0, s0, s3
        add  t1, s1, s4
        addi t2, x0, 16
        addi t3, x0, 0
term:   lw   t4, 0(t0)
        lw   t5, 0(t1)
        mul  t4, t4, t5
        add  t3, t3, t4
        addi t0, t0, 4
        addi t1, t1, 64
        addi t2, t2, -1
        bnez t2, term
        add  t0, s2, s3
        add  t0, t0, s4
        sw   t3, 0(t0)
        addi s4, s4, 4
        addi t6, x0, 64
        bne  s4, t6, column
        addi s3, s3, 64
        addi t6, x0, 1024
        bne  s3, t6, row
        addi a0, t3, -504
        addi a7, x0, 93
        ecall
