# For two cores. Core 0 puts the letters A to E into a word, one after another, each once a flag says that the last one
# was taken. Core 1 prints each, and clears the flag.
        lui  s0, 1              # the word; the flag lies 16 bytes further
        bnez a0, consume
        addi s2, x0, 65
        addi s3, x0, 70
put:    lw   t0, 16(s0)
        bnez t0, put
        sw   s2, 0(s0)
        addi t0, x0, 1
        sw   t0, 16(s0)
        addi s2, s2, 1
        bne  s2, s3, put
        j    done
consume: addi s3, x0, 5
take:   lw   t0, 16(s0)
        beqz t0, take
        lw   a0, 0(s0)
        addi a7, x0, 1
        ecall
        sw   x0, 16(s0)
        addi s3, s3, -1
        bnez s3, take
done:   addi a7, x0, 93
        addi a0, x0, 0
        ecall
