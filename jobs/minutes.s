# Haul times in seconds: does our truck come before the shovel is free, and how long does it wait?
# The shovel is free after 12 minutes. The course counts whole minutes, so the rule divides the haul
# time by 60. A truck that comes in an earlier minute waits for the minutes that are left. The wait
# is given in seconds, 60 for each minute.
#
# divu does not fork. The comparison of the minutes does, and cuts the seconds at 720, which is 12
# times 60: 719 seconds are 11 minutes. mul forks only where its product passes 2^64.

.input 0..3600          # haul time in seconds, up to an hour
.limit 100

        li   a7, 63             # read the input to address 0
        li   a2, 8
        ecall
        ld   t0, 0(zero)        # t0: haul time in seconds
        li   t1, 60
        li   t2, 12             # t2: when the shovel is free, in minutes
        divu t3, t0, t1         # t3: haul time in whole minutes; no fork
        li   a0, 0
        sltu t4, t3, t2         # a fork: before the shovel is free, or not
        beq  t4, zero, done
        sub  t3, t2, t3         # minutes left: fewer, the longer the haul
        mul  a0, t3, t1         # in seconds
done:   li   a7, 93             # exit with the wait in a0
        ecall
