# Job A of document 01: is the input below 10?
# The engine finds where the answer changes and lists one path for each side.

.input 0..255           # the input
.limit 100              # no path takes more than 100 steps

        li   a7, 63             # the next ecall is a read; a0 holds 0, as it must
        li   a2, 8              # of 8 bytes, to the address in a1, which is 0
        ecall
        ld   t0, 0(zero)        # what was read
        li   t1, 10
        sltu a0, t0, t1         # 1 if it is below 10, otherwise 0: the path forks here
        li   a7, 93             # the next ecall is the exit, with the value in a0
        ecall
