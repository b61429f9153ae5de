# The entry of the monitor: no interrupt, no memory of an earlier run, and a trap that is known.
    .option norelax
    .section .text.start, "ax"
    .globl _start
_start:
    csrw mie, zero
    csrw mscratch, zero          # the monitor runs: see trap.S
    la t0, trap
    csrw mtvec, t0
    la sp, monitor_stack_end
    la a0, monitor_memory
    li a1, 0
    la a2, monitor_memory_end
    sub a2, a2, a0
    call memset
    call monitor

    .section .stack, "aw", @nobits
    .balign 16
    .space MONITOR_STACK
    .globl monitor_stack_end
monitor_stack_end:
