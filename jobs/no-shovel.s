# Shovels that may all stand still: how long does our truck wait after the break?
# Each shovel at work loads for 32 minutes before the break. If that is not enough for the trucks
# ahead of us, our wait is what is left of their loading; otherwise it is 0.
#
# The rule divides by the minutes before the break, which are 0 if no shovel is at work. It relies
# on what the RISC-V manual says of that: divu gives 2^64 - 1, which is not 0, and remu gives the
# dividend, so that all of the loading is left. Neither of them forks.

.input 0..2             # shovels at work
.input 0..60            # minutes of loading for the trucks ahead of us
.limit 100

        li   a7, 63             # read the inputs to the addresses 0 and 8
        li   a2, 8
        ecall
        li   a0, 0
        li   a1, 8
        ecall
        ld   t0, 0(zero)        # t0: shovels at work
        ld   t1, 8(zero)        # t1: loading for the trucks ahead
        li   t2, 0              # t2 shovels ..
        li   t3, 0              # .. load for t3 minutes
count:  beq  t0, t2, counted    # a fork: t2 shovels are at work, or more
        addi t2, t2, 1
        addi t3, t3, 32
        j    count
counted:
        li   a0, 0
        divu t4, t1, t3         # 0 if the loading is shorter than the minutes
        beq  t4, zero, done     # a fork for one shovel alone: its quotient is 0, or 1
        remu a0, t1, t3         # what is left, since 60 is below twice 32
done:   li   a7, 93             # exit with the wait in a0
        ecall
