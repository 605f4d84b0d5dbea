# The start of a program with picolibc: the address of thread-local data, zeros in .bss, constructors, main and exit.
    .globl _start
    .type _start, @function
_start:
    la tp, __tls_base
    la t0, __bss_start
    la t1, __bss_end
    bgeu t0, t1, 2f
1:  sw zero, 0(t0)
    addi t0, t0, 4
    bltu t0, t1, 1b
2:  call __libc_init_array
    # There are no words of a command line: main(0, 0).
    li a0, 0
    li a1, 0
    call main
    tail exit
    .size _start, . - _start
