# For tests: counts the instructions of the image and its calls. The linker puts __wrap_NAME in place of NAME of the monitor (batch.c).
    .option norelax
    .set STEPS_IN, 23            # instructions of trap.S behind the image's last one
    .set STEPS_OUT, 23           # from the reading of the counter to the image's next one
    .set FIRST_STEPS_OUT, 76

    .text
    .globl __wrap_serve, __wrap_into_image
__wrap_serve:
    csrr t0, minstret
    la t1, image_steps
    lw t2, 4(t1)
    sub t0, t0, t2
    lw t2, 0(t1)
    add t0, t0, t2
    addi t0, t0, -STEPS_IN
    sw t0, 0(t1)
    addi sp, sp, -16
    sw ra, 12(sp)
    csrr t0, mcause
    li t1, 8
    bne t0, t1, 1f
    li t1, 14
    bgeu a2, t1, 1f
    slli t0, a2, 2
    la t1, calls_made
    add t1, t1, t0
    lw t0, 0(t1)
    addi t0, t0, 1
    sw t0, 0(t1)
1:  call __real_serve
    lw ra, 12(sp)
    addi sp, sp, 16
    la t0, image_steps
    csrr t1, minstret
    addi t1, t1, STEPS_OUT
    sw t1, 4(t0)
    ret

__wrap_into_image:
    la t0, image_steps
    csrr t1, minstret
    addi t1, t1, FIRST_STEPS_OUT
    sw t1, 4(t0)
    tail __real_into_image
