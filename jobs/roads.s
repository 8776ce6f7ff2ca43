# A wait from a table in memory: how long does a truck wait at the end of its road?
# An input cannot choose a memory word, so the rule counts up to the road first; on each path the
# place in the table is then a known number.
#
# The roads 1 and 3 have no wait. The zero of road 1 stands in the table; that of road 3 is the last
# word, and is 0 too if it is not given: the job that is made of this rule leaves it out.

.input 0..3             # the road
.limit 100
.word 12, 0, 7, 0       # the waits of the roads, at the addresses 0, 8, 16 and 24

        li   a7, 63             # read the road to address 32, behind the table
        li   a1, 32
        li   a2, 8
        ecall
        ld   t0, 32(zero)       # t0: the road
        li   t1, 0              # t1: a road ..
        li   t2, 0              # .. and the address of its wait
next:   beq  t0, t1, found      # a fork: it is road t1, or a later one
        addi t1, t1, 1
        addi t2, t2, 8
        j    next
found:  ld   a0, 0(t2)
        li   a7, 93             # exit with the wait in a0
        ecall
