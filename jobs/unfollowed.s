# A sum that the engine does not follow: it ends the path with kind 8 and reason 1.
# Two haul times that both vary cannot be added. A haul time may be multiplied by any fixed number
# and divided by it, and a fixed number added. So fix one of the two first: count up to it with beq,
# as jobs/waiting-time.s does with the queue. See docs/NUMBERS.md.

.input 0..255           # haul time to the shovel
.input 0..255           # haul time back
.limit 100

        li   a7, 63             # read the inputs to the addresses 0 and 8
        li   a2, 8
        ecall
        li   a0, 0
        li   a1, 8
        ecall
        ld   t0, 0(zero)
        ld   t1, 8(zero)
        add  a0, t0, t1         # the path ends here, at address 32
        li   a7, 93
        ecall
