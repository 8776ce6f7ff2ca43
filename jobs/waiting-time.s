# A waiting-time rule: how long does our truck wait at the shovel?
#
# Three inputs, in the order in which they are read:
#   1. the haul time of the other truck, in minutes
#   2. the haul time of our truck, in minutes
#   3. the queue: how many trucks stand at the shovel now
# The shovel loads a truck in 8 minutes, so it is free after 8 minutes for each truck in the queue.
# If the other truck arrives before that, it stands ahead of us and takes 8 minutes more.
# Our wait is what is left of that time when we arrive, or 0.
#
# The engine compares an input with a known number only, never two inputs with each other. So the
# rule first counts up to the queue: on each path it then knows how long the queue is.

.input 0..60            # haul time of the other truck
.input 0..60            # haul time of our truck
.input 0..3             # trucks in the queue
.limit 200              # steps; a longer path would end with kind 7

# Read the three inputs to the addresses 0, 8 and 16. A read sets a0 to 8, so a0 is set to 0 again.
        li   a7, 63             # the next calls are reads
        li   a2, 8              # of 8 bytes each
        ecall                   # to address 0: a0 and a1 are 0 at the start
        li   a0, 0
        li   a1, 8
        ecall
        li   a0, 0
        li   a1, 16
        ecall
        ld   t0, 0(zero)        # t0: haul time of the other truck
        ld   t1, 8(zero)        # t1: haul time of our truck
        ld   t2, 16(zero)       # t2: trucks in the queue

# Count up to the queue: t3 trucks take t4 minutes.
        li   t3, 0
        li   t4, 0
count:  beq  t2, t3, counted    # a fork: the queue is t3, or it is longer
        addi t3, t3, 1
        addi t4, t4, 8
        j    count
counted:

# Is the other truck there before the shovel is free?
        sltu t5, t0, t4         # a fork: its haul time is below t4, or not
        beq  t5, zero, behind
        addi t4, t4, 8          # it is ahead of us
behind:

# Our wait.
        li   a0, 0
        sltu t5, t1, t4         # a fork: we arrive before the shovel is free, or not
        beq  t5, zero, done
        sub  a0, t4, t1         # the wait falls as our haul time rises
done:   li   a7, 93             # exit with the wait in a0
        ecall
