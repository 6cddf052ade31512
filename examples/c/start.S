# The entry: each core begins here, with its number in a0 and its stack's end in sp, which is 4096 bytes lower for each core.
# Up to the store all cores do the same in the same cycles: that is how core 0 can tell afterwards which are there.
        .section .text.start, "ax"
        .globl  start
start:
        .option push
        .option norelax
        la      gp, __global_pointer$
        .option pop
        la      t0, present
        slli    t1, a0, 4
        add     t0, t0, t1
        sw      gp, 0(t0)
        # The stack of core k ends k times its size below the end of memory; variables of a thread lie at its upper end.
        slli    t1, a0, 12
        add     a1, sp, t1
        la      t0, stack_size
        mul     t0, t0, a0
        sub     sp, a1, t0
        la      t0, tls_room
        sub     sp, sp, t0
        mv      tp, sp
        tail    begin
