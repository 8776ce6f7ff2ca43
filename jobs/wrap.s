# A sum that wraps: any number plus 5.
# The machine's words end at 2^64 - 1, and the sum goes on from 0 there. The five highest inputs
# wrap, so they are a path of their own; one path would show sums from 5 to 4.

.input 0..max           # any number
.limit 100

        li   a7, 63             # read the input to address 0
        li   a2, 8
        ecall
        ld   t0, 0(zero)
        addi a0, t0, 5          # a fork: the sum wraps, or not
        li   a7, 93             # exit with the sum
        ecall
