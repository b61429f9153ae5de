# The way from the image into the monitor and back. The monitor's code never touches x3, x4, x8, x9 and x18 to x27, or gives them back.
    .option norelax
    .set FRAME, 64
    .set IMAGE_STACK, 60         # where the frame has the image's x2

# All other registers that C may change: from the frame, or into it. x10 has the answer of a call.
    .macro each_register instruction
    .set at, 0
    .irp register, ra, t0, t1, t2, t3, t4, t5, t6, a1, a2, a3, a4, a5, a6, a7
    \instruction \register, at(sp)
    .set at, at + 4
    .endr
    .endm

    .text
    .balign 4
    .globl trap
trap:
    csrrw sp, mscratch, sp       # mscratch is the monitor's stack while the image runs, and else 0
    beqz sp, trap_in_monitor
    addi sp, sp, -FRAME
    each_register sw
    csrrw a3, mscratch, zero
    sw a3, IMAGE_STACK(sp)
    mv a2, a7
    call serve
to_image:
    addi t0, sp, FRAME
    csrw mscratch, t0
    each_register lw
    lw sp, IMAGE_STACK(sp)
    mret

# into_image(program counter, x2): every other register 0, in user mode
    .globl into_image
into_image:
    csrw mepc, a0
    li t0, 1 << 21               # no interrupt; WFI of user mode traps; the mode before the trap is user
    csrw mstatus, t0
    la sp, monitor_stack_end - FRAME
    sw a1, IMAGE_STACK(sp)
    .irp register, ra, gp, tp, t0, t1, t2, s0, s1, a0, a1, a2, a3, a4, a5, a6, a7, s2, s3, s4, s5, s6, s7, s8, s9, s10, s11, t3, t4, t5, t6
    li \register, 0
    .endr
    each_register sw
    j to_image
