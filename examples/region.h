/* Dual regions of C and C++: two functions as a region (REGION, with region.s), or two branches (fast_track, end_dual_track). */
#ifndef REGION_H
#define REGION_H

#ifdef __cplusplus
#define REGION_C extern "C"
#else
#define REGION_C extern
#endif

/* Defines `name`, a function of the type of `slow`: a region of its own, whose original is `slow` and whose fast version is
   `fast`. It answers what the version answers that was run. Both have one type: up to seven arguments and one answer, each an
   integer of at most 32 bits or a pointer. `stack` is a constant number of bytes of stack: as many as the deeper of the two
   uses, with all that it calls. It is rounded up to a multiple of 16, and so many below the stack pointer are cleared
   afterwards, as are all temporary registers. So neither what is left there nor the way taken tells the two apart. Only the
   answer 1 of FastTrack runs `fast`; a system that does not know the call runs `slow`. */
#define REGION(name, slow, fast, stack)                                                                 \
    REGION_C __typeof__(slow) name;                                                                     \
    static const struct {                                                                               \
        __typeof__(slow) *versions[2];                                                                  \
        unsigned long cleared;                                                                          \
    } name##_region __asm__(#name "_region") __attribute__((used)) = {{slow, fast}, ((stack) + 15ul) & ~15ul}; \
    __asm__(".pushsection .text." #name ", \"ax\", @progbits\n"                                         \
            "    .globl " #name "\n"                                                                    \
            "    .type " #name ", @function\n"                                                          \
            #name ":\n"                                                                                 \
            "    mv t0, a0\n"                                                                           \
            "    li a7, 2000\n"                                                                         \
            "    ecall\n"                                                                               \
            "    la t3, " #name "_region\n"                                                             \
            "    tail region_run\n"                                                                     \
            "    .size " #name ", . - " #name "\n"                                                      \
            ".popsection\n")

/* Opens a region in the middle of a function: `if (fast_track() == 1) .. else .. end_dual_track();`. The first branch is the
   fast version, the second the original. What both compute goes to variables that are declared before the region. Calls in
   the branches leave bytes below the stack pointer, which nothing clears: where there are any, take REGION. */
static inline __attribute__((always_inline)) long fast_track(void) {
    long answer;
    __asm__ volatile("li a7, 2000\n\tecall\n\tmv %0, a0" : "=r"(answer) : : "a0", "a7", "memory");
    return answer;
}

/* Closes it. The compiler keeps nothing in the registers that are cleared. s0 is not among them, since it may be the frame
   pointer. */
static inline __attribute__((always_inline)) void end_dual_track(void) {
    __asm__ volatile(
        "li ra, 0\n\tli t0, 0\n\tli t1, 0\n\tli t2, 0\n\tli t3, 0\n\tli t4, 0\n\tli t5, 0\n\tli t6, 0\n\t"
        "li a0, 0\n\tli a1, 0\n\tli a2, 0\n\tli a3, 0\n\tli a4, 0\n\tli a5, 0\n\tli a6, 0\n\t"
        "li s1, 0\n\tli s2, 0\n\tli s3, 0\n\tli s4, 0\n\tli s5, 0\n\tli s6, 0\n\tli s7, 0\n\tli s8, 0\n\tli s9, 0\n\t"
        "li s10, 0\n\tli s11, 0\n\t"
        "li a7, 2001\n\tecall"
        :
        :
        : "ra", "t0", "t1", "t2", "t3", "t4", "t5", "t6", "a0", "a1", "a2", "a3", "a4", "a5", "a6", "a7", "s1", "s2", "s3",
          "s4", "s5", "s6", "s7", "s8", "s9", "s10", "s11", "memory");
}

#endif
