# The part that all regions of region.h have in common.

# Runs one version of a region, clears what it left behind, and closes the region. It returns to the caller of the region.
# a0: what FastTrack answered; t0: the first argument; a1 to a6: the others;
# t3: the address of the two versions and of the number of bytes of stack to clear, a multiple of 16.
# Both versions take one way through it, with one number of instructions.
    .globl region_run
    .type region_run, @function
region_run:
    addi sp, sp, -16
    sw ra, 12(sp)
    sw s0, 8(sp)
    lw s0, 8(t3)
    # Only the answer 1 chooses the second version.
    addi a0, a0, -1
    seqz a0, a0
    slli a0, a0, 2
    add t3, t3, a0
    lw t3, 0(t3)
    mv a0, t0
    jalr t3
    # The stack that is no longer in use, from its far end up to sp.
    sub t0, sp, s0
    bgeu t0, sp, 2f
1:  sw zero, 0(t0)
    sw zero, 4(t0)
    sw zero, 8(t0)
    sw zero, 12(t0)
    addi t0, t0, 16
    bltu t0, sp, 1b
    # The temporaries; the versions have restored the saved registers.
2:  li t0, 0
    li t1, 0
    li t2, 0
    li t3, 0
    li t4, 0
    li t5, 0
    li t6, 0
    li a2, 0
    li a3, 0
    li a4, 0
    li a5, 0
    li a6, 0
    # The answer stays in a0, and in a1 for systems that do not know the call and answer in a0.
    mv a1, a0
    li a7, 2001
    ecall
    mv a0, a1
    lw ra, 12(sp)
    lw s0, 8(sp)
    addi sp, sp, 16
    ret
    .size region_run, . - region_run
