# Writes the primes below 100, a line each, and exits with their count, 25.
#
# s0 the number, s1 the table of marks: 1 where a smaller prime divides the number, s2 the count

        la   s1, marks
        li   s0, 2
        li   s2, 0
next:   add  t0, s1, s0
        lbu  t0, 0(t0)
        bne  t0, zero, after
        addi s2, s2, 1
        call mark
        call print
after:  addi s0, s0, 1
        li   t0, 100
        blt  s0, t0, next
        mv   a0, s2
        li   a7, 93             # exit
        ecall

# Marks the multiples of s0 below 100.
mark:   mv   t0, s0
        li   t1, 100
        li   t2, 1
again:  add  t0, t0, s0
        bge  t0, t1, marked
        add  t3, s1, t0
        sb   t2, 0(t3)
        j    again
marked: ret

# Writes s0, in one or two digits, and a line end.
print:  la   a1, line
        li   t0, 0              # the tens
        mv   t1, s0             # what is left
        li   t2, 10
tens:   blt  t1, t2, digits
        addi t0, t0, 1
        sub  t1, t1, t2
        j    tens
digits: addi t3, t0, 48
        sb   t3, 0(a1)
        addi t3, t1, 48
        sb   t3, 1(a1)
        li   a2, 3
        bne  t0, zero, write
        addi a1, a1, 1          # no tens: from the ones on
        li   a2, 2
write:  li   a0, 1
        li   a7, 64             # write
        ecall
        ret

line:   .ascii "00\n"
marks:  .zero 100
