# A jump as compilers write it: beq of a register with itself. How long does a truck wait?
# The shovel is busy for 20 minutes: a truck that arrives earlier waits for the rest of them.
# From minute 45 on the shovel takes fuel: a truck that arrives then waits 15 minutes.
#
# t0 holds the haul time, which varies, but a register is always equal to itself: the engine
# follows such a jump, and does not fork there. sub of a register with itself gives 0 likewise.

.input 0..120           # the haul time, in minutes
.limit 100

        li   a7, 63             # read the haul time to address 0
        li   a2, 8
        ecall
        ld   t0, 0(zero)        # t0: the haul time
        li   t1, 20
        sltu t2, t0, t1         # a fork: the shovel is still busy, or not
        beq  t2, zero, free
        sub  a0, t1, t0         # the wait falls as the haul time rises
        beq  t0, t0, done       # a jump, for every haul time
free:   li   t1, 45
        sltu t2, t0, t1         # a fork: the truck is there before the fuel, or not
        beq  t2, zero, fuel
        sub  a0, t0, t0         # no wait: 0, for every haul time
        beq  t0, t0, done
fuel:   li   a0, 15
done:   li   a7, 93             # exit with the wait in a0
        ecall
