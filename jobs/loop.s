# A test in a loop: is the input below 5? It is asked ten times, and the answers are counted.
# After the first fork the engine knows the answer, so there are two paths and not 1,024.

.input 0..255
.limit 200

        li   a7, 63             # read the input to address 0
        li   a2, 8
        ecall
        ld   t0, 0(zero)        # t0: the input
        li   t1, 5
        li   t2, 10             # t2: how often to ask
        li   a0, 0              # a0: how often the answer was yes
again:  sltu t3, t0, t1         # a fork in the first turn only
        add  a0, a0, t3
        addi t2, t2, -1
        beq  t2, zero, done
        j    again
done:   li   a7, 93             # exit with the count
        ecall
