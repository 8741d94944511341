# Writes what it reads of the console's input to its output, until the input ends, and exits with 0.

again:  li   a0, 0
        la   a1, buffer
        li   a2, 512
        li   a7, 63             # read
        ecall
        bge  zero, a0, end
        mv   a2, a0
        li   a0, 1
        la   a1, buffer
        li   a7, 64             # write
        ecall
        j    again
end:    li   a7, 93             # exit, with 0 at the input's end
        ecall
buffer: .zero 512
