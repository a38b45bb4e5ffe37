# The first instructions: a stack, the place of the trap handler, then main. A program that is done
# jumps to itself.
    .section .start, "ax"
    .globl _start
_start:
    .option push
    .option norelax
    la gp, __global_pointer$
    .option pop
    la sp, stack_top
    la t0, on_timer
    csrw mtvec, t0
    call main
done:
    j done
