# An image that makes the requests of its input, for tests of a store: each is a byte, the call's number, and two arguments; 255 ends the run. An argument is
# a byte and a word: 0 and a number, or 1 and the number of an earlier request, for what that one answered. Each answer is written, and kept on the stack.
    .option norelax
    .text
    li s0, 0                     # requests so far
    mv s1, sp                    # answers lie below the stack's end, from here down
next:
    call byte
    li t0, 255
    beq a0, t0, ended
    bltz a0, ended
    mv s2, a0
    call argument
    mv s3, a0
    call argument
    mv a1, a0
    mv a0, s3
    mv a7, s2
    ecall
    slli t0, s0, 2
    sub t0, s1, t0
    sw a0, -4(t0)
    addi s0, s0, 1
    call put_word
    j next
ended:
    li a0, 0
    li a7, 0
    ecall

byte:                            # a byte of the input in x10
    li a7, 2
    ecall
    ret

argument:                        # an argument in x10
    mv s4, ra
    call byte
    mv s5, a0
    li s6, 0
    li s7, 0
1:  call byte
    sll a0, a0, s7
    or s6, s6, a0
    addi s7, s7, 8
    li t0, 32
    bne s7, t0, 1b
    mv a0, s6
    beqz s5, 2f
    slli t0, s6, 2
    sub t0, s1, t0
    lw a0, -4(t0)
2:  mv ra, s4
    ret

put_word:                        # the four bytes of x10
    mv s6, a0
    li s7, 4
1:  mv a0, s6
    li a7, 1
    ecall
    srli s6, s6, 8
    addi s7, s7, -1
    bnez s7, 1b
    ret
