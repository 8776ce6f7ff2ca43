# Every way in which a path can end: one value of the input for each kind.
# A rule should end by exit alone. Here the values 0 to 5 each end in another way, 6 exits, and for
# the values from 7 on both operands of a sum vary. See docs/NUMBERS.md.

.input 0..20            # the way
.limit 5000             # steps; an endless loop ends there

        li   a7, 63             # read the input to address 0
        li   a2, 8
        ecall
        ld   t0, 0(zero)        # t0: the way
        beq  t0, zero, 4000     # a fork: 0 jumps out of the code
        li   t1, 1
        beq  t0, t1, word       # a fork, as are the next ones
        li   t1, 2
        beq  t0, t1, address    # a fork
        li   t1, 3
        beq  t0, t1, call       # a fork
        li   t1, 4
        beq  t0, t1, endless    # a fork
        li   t1, 5
        beq  t0, t1, full       # a fork
        li   t1, 6
        beq  t0, t1, done       # a fork
        add  a0, t0, t0         # both operands vary: not followed

word:   .code 0                 # no instruction
address:
        ld   a0, 4(zero)        # 4 is no multiple of 8
call:   li   a7, 64             # no such call
        ecall
endless:
        j    endless            # until the step limit
full:   addi a0, a0, 1          # each turn takes a trace entry
        j    full
done:   li   a7, 93
        ecall
