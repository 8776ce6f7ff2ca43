# A wait in whole loads: how many haul times lead to each wait? ./count jobs/loads.s says it.
#
# The inputs are those of waiting-time.s, in minutes: the haul times of the other truck and of ours,
# and the queue at the shovel. The shovel loads a truck in 8 minutes. The other truck stands ahead of
# us if it arrives before the queue is loaded. We wait for each load that ends after we arrive, and
# the board shows 8 minutes for it, as if it had just begun. So a path has one wait: 0, 8, 16, 24 or
# 32 minutes.
# From minute 50 on the shovel takes fuel, up to minute 60: a truck that arrives then waits for the
# rest of that, and its wait varies with its haul time.
# Where no truck stands at the shovel, it matters which of the two arrives first. The engine does
# not follow a comparison of two inputs: those choices are counted as not followed.

.input 0..60            # haul time of the other truck
.input 0..60            # haul time of our truck
.input 0..3             # trucks in the queue
.limit 200

        li   a7, 63             # read the inputs to the addresses 0, 8 and 16
        li   a2, 8
        ecall
        li   a0, 0
        li   a1, 8
        ecall
        li   a0, 0
        li   a1, 16
        ecall
        ld   t0, 0(zero)        # t0: haul time of the other truck
        ld   t1, 8(zero)        # t1: haul time of our truck
        ld   t2, 16(zero)       # t2: trucks in the queue
        li   a0, 0              # a0: the wait
        beq  t2, zero, empty    # a fork: no truck at the shovel, or some

# Count up to the queue: t3 trucks are loaded at minute t4.
        li   t3, 1
        li   t4, 8
count:  beq  t2, t3, counted    # a fork: the queue is t3, or it is longer
        addi t3, t3, 1
        addi t4, t4, 8
        j    count
counted:
        sltu t5, t0, t4         # a fork: the other truck is ahead of us, or not
        beq  t5, zero, behind
        addi t4, t4, 8
behind: li   t6, 50
        sltu t5, t1, t6         # a fork: we arrive before the fuel, or not
        beq  t5, zero, fuel

# Back from the last load: does it end after we arrive?
again:  sltu t5, t1, t4         # a fork: it does, or not
        beq  t5, zero, done
        addi a0, a0, 8
        addi t4, t4, -8
        j    again

fuel:   li   t6, 60
        sub  a0, t6, t1         # the wait falls as our haul time rises
        j    done

empty:  sltu t5, t0, t1         # both vary: the path ends here
        beq  t5, zero, done
        addi a0, a0, 8
done:   li   a7, 93             # exit with the wait in a0
        ecall
